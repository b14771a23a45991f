//! `rooms`: how many nodes have all rooms to which schedules of a room's simulators lead, and how many outcomes these reach with a number of crashes at
//! most. A node is what the memory shows of each simulator, and the states that each may be in there. This is the search of `bgview outcomes --rooms` in plain
//! Rust, to compare counts, times and instructions: it keeps no schedules, and leaves out words that nobody can read. Rooms have one word of memory here, and
//! turns enough.

use std::collections::{HashMap, HashSet};

use crate::lang::{Action, Code, Engine, Machine};
use crate::nodes::Numbered;
use crate::spec::{Cursor, Spec};
use crate::text::{Input, Keyed, put_line_number};
use crate::{Ended, Outcome};

/// What is left to do for a process.
#[derive(Clone, Copy, PartialEq, Eq, Hash)]
enum Goal {
    Write(u8, u32),
    Ask(u8),
    Done,
    Spent,
}

/// An open turn: its next line, and what it has loaded.
#[derive(Clone, PartialEq, Eq, Hash)]
struct Turn {
    line: u8,
    process: u8,
    round: u8,
    view: u32,
    saw_two: bool,
    holder: u8,
    at: u8,
    row: Vec<u32>, // a value and one more, or 0
    decision: u32,
}

/// What one simulator alone changes: its local state, and its words.
#[derive(Clone, PartialEq, Eq, Hash)]
struct Simulator {
    goals: Vec<Goal>,
    sweep: u8,
    turn: Option<Turn>,
    steps: Vec<u8>,
    levels: Vec<u8>,
    views: Vec<u32>,  // a number and one more, or 0
    values: Vec<u64>, // a value and one more, or 0
    outs: Vec<u64>,   // so too
}

type Node = Vec<u32>;

struct Search<'a, 'e> {
    spec: &'a Spec,
    engine: &'a mut Engine<'e>,
    views: Numbered<Vec<u8>>,
    simulators: Numbered<Simulator>,
    /// What others can read of each simulator, by a number.
    shown: Vec<u32>,
    all_shown: Numbered<Vec<u64>>,
    memories: Numbered<Vec<u32>>,
    sets: Numbered<Vec<u32>>,
    /// A simulator after its next step, by its number, its place and the memory.
    moved: HashMap<(u32, u8, u32), Option<u32>, Keyed>,
    /// A set with all that steps lead to which nobody can notice.
    closed: HashMap<(u32, u8, u32), u32, Keyed>,
    below: HashMap<(u32, u32), bool, Keyed>,
}

fn opened(n: usize, simulator: &Simulator) -> Option<Turn> {
    (0..n)
        .map(|distance| (simulator.sweep as usize + distance) % n)
        .find_map(|process| {
            let (line, round) = match simulator.goals[process] {
                Goal::Write(round, _) => (1, round),
                Goal::Ask(round) => (8, round),
                Goal::Done | Goal::Spent => return None,
            };
            Some(Turn {
                line,
                process: process as u8,
                round,
                view: 0,
                saw_two: false,
                holder: 0,
                at: 0,
                row: Vec::new(),
                decision: 0,
            })
        })
}

fn is_blocked(all: &[&Simulator], agreement: usize) -> bool {
    all.iter().any(|one| one.levels[agreement] == 1)
        || !all.iter().any(|one| one.levels[agreement] == 2)
}

impl Search<'_, '_> {
    fn opening(&mut self, i: usize) -> Simulator {
        let (n, rounds) = (self.spec.n, self.spec.rounds);
        let goals = (0..n)
            .map(|p| {
                let input = self.spec.inputs[p];
                Goal::Write(1, self.spec.protocol.first(self.engine, input, p))
            })
            .collect();
        Simulator {
            goals,
            sweep: (i % n) as u8,
            turn: None,
            steps: vec![0; n],
            levels: vec![0; n * rounds],
            views: vec![0; n * rounds],
            values: vec![0; n * rounds],
            outs: vec![0; n],
        }
    }

    /// A view is forgotten once its simulator has withdrawn: it is never read.
    fn number(&mut self, mut simulator: Simulator) -> u32 {
        let inside = simulator
            .turn
            .as_ref()
            .filter(|turn| turn.line <= 7)
            .map(|turn| self.agreement(turn.process, turn.round));
        for (agreement, view) in simulator.views.iter_mut().enumerate() {
            if simulator.levels[agreement] == 0 && inside != Some(agreement) {
                *view = 0;
            }
        }
        let number = self.simulators.number(simulator);
        if number as usize == self.shown.len() {
            let shown = self.shown_of(number);
            let shown = self.all_shown.number(shown);
            self.shown.push(shown);
        }
        number
    }

    fn agreement(&self, process: u8, round: u8) -> usize {
        process as usize * self.spec.rounds + round as usize - 1
    }

    /// What others can read of a simulator's words: a view once its level is 2, a value once it is counted.
    fn shown_of(&self, number: u32) -> Vec<u64> {
        let simulator = &self.simulators.all[number as usize];
        let rounds = self.spec.rounds;
        let mut shown = Vec::new();
        for p in 0..self.spec.n {
            shown.push(simulator.steps[p] as u64);
            for k in 0..rounds {
                let at = p * rounds + k;
                let level = simulator.levels[at];
                let is_counted = k < simulator.steps[p] as usize;
                shown.push(level as u64);
                shown.push(if level == 2 {
                    simulator.views[at] as u64
                } else {
                    0
                });
                shown.push(if is_counted { simulator.values[at] } else { 0 });
            }
        }
        shown
    }

    /// The simulator after its next step, or nothing if it has none.
    fn step(&mut self, simulators: &[u32], i: usize) -> Option<u32> {
        let all: Vec<&Simulator> = simulators
            .iter()
            .map(|number| &self.simulators.all[*number as usize])
            .collect();
        let mut own = all[i].clone();
        let mut turn = match own.turn.take() {
            Some(turn) => turn,
            None => opened(self.spec.n, &own)?,
        };
        let process = turn.process as usize;
        let agreement = self.agreement(turn.process, turn.round);
        turn.line += 1;
        match turn.line - 1 {
            1 => {
                let Goal::Write(_, value) = own.goals[process] else {
                    unreachable!()
                };
                own.values[agreement] = value as u64 + 1;
            }
            2 => own.steps[process] += 1,
            3 => {
                let view = all.iter().flat_map(|one| one.steps.iter().copied());
                turn.view = self.views.number(view.collect());
            }
            4 => {
                own.views[agreement] = turn.view + 1;
                turn.view = 0;
            }
            5 => own.levels[agreement] = 1,
            6 => turn.saw_two = all.iter().any(|one| one.levels[agreement] == 2),
            7 => {
                own.levels[agreement] = if turn.saw_two { 0 } else { 2 };
                turn.saw_two = false;
            }
            8 => {
                if is_blocked(&all, agreement) {
                    own.goals[process] = Goal::Ask(turn.round);
                    return Some(self.rested(own, process));
                }
                turn.holder = all.iter().position(|one| one.levels[agreement] == 2)? as u8;
            }
            9 => {
                turn.view = all[turn.holder as usize].views[agreement] - 1;
                turn.row = vec![0; self.spec.n];
                turn.at = 0;
            }
            10 => {
                if self.load(&all, &mut turn) {
                    turn.line = 10;
                } else if let Some(goal) = self.acted(&mut turn) {
                    own.goals[process] = goal;
                    return Some(self.rested(own, process));
                }
            }
            _ => {
                own.outs[process] = turn.decision as u64 + 1;
                own.goals[process] = Goal::Done;
                return Some(self.rested(own, process));
            }
        }
        own.turn = Some(turn);
        Some(self.number(own))
    }

    fn rested(&mut self, mut own: Simulator, process: usize) -> u32 {
        own.sweep = ((process + 1) % self.spec.n) as u8;
        own.turn = None;
        self.number(own)
    }

    /// Loads the next value that the view counts. Gives whether one is left.
    fn load(&self, all: &[&Simulator], turn: &mut Turn) -> bool {
        let (n, rounds) = (self.spec.n, self.spec.rounds);
        let view = &self.views.all[turn.view as usize];
        let most = |p: usize| (0..all.len()).map(|h| view[h * n + p]).max().unwrap_or(0);
        let mut left = (turn.at as usize..n).filter(|p| most(*p) > 0);
        if let Some(p) = left.next() {
            let counted = most(p);
            if let Some(h) = (0..all.len()).find(|h| view[h * n + p] == counted) {
                turn.row[p] = all[h].values[p * rounds + counted as usize - 1] as u32;
            }
            turn.at = p as u8 + 1;
        }
        left.next().is_some()
    }

    /// What the protocol asks for after the snapshot. A decision stays in the turn.
    fn acted(&mut self, turn: &mut Turn) -> Option<Goal> {
        let mut cells = [0; 16];
        let mut present = 0;
        for (p, value) in turn.row.iter().enumerate() {
            if *value > 0 {
                cells[p] = value - 1;
                present |= 1 << p;
            }
        }
        let (p, round) = (turn.process as usize, turn.round as usize);
        let input = self.spec.inputs[p];
        match self
            .spec
            .protocol
            .next(self.engine, input, p, round, &cells, present)
        {
            Action::Decide(value) => {
                turn.decision = value;
                (turn.view, turn.holder, turn.at) = (0, 0, 0);
                turn.row = Vec::new();
                None
            }
            Action::Write(value) if round < self.spec.rounds => {
                Some(Goal::Write(turn.round + 1, value))
            }
            Action::Write(_) => Some(Goal::Spent),
        }
    }

    fn step_in(&mut self, number: u32, i: usize, memory: u32, others: &[u32]) -> Option<u32> {
        if let Some(known) = self.moved.get(&(number, i as u8, memory)) {
            return *known;
        }
        let mut simulators = others.to_vec();
        simulators[i] = number;
        let next = self.step(&simulators, i);
        self.moved.insert((number, i as u8, memory), next);
        next
    }

    fn close(&mut self, set: u32, i: usize, memory: u32, others: &[u32]) -> u32 {
        if let Some(known) = self.closed.get(&(set, i as u8, memory)) {
            return *known;
        }
        let mut have = self.sets.all[set as usize].clone();
        let mut todo = have.clone();
        while let Some(number) = todo.pop() {
            let Some(next) = self.step_in(number, i, memory, others) else {
                continue;
            };
            if self.shown[next as usize] == self.shown[number as usize] && !have.contains(&next) {
                have.push(next);
                todo.push(next);
            }
        }
        have.sort_unstable();
        let closed = self.sets.number(have);
        self.closed.insert((set, i as u8, memory), closed);
        closed
    }

    fn memory(&mut self, simulators: &[u32]) -> u32 {
        let shown = simulators.iter().map(|number| self.shown[*number as usize]);
        let shown = shown.collect();
        self.memories.number(shown)
    }

    /// Whether all states of one node are in another with the same memory.
    fn is_below(&mut self, one: &Node, other: &Node) -> bool {
        one.iter().zip(other).all(|(one, other)| {
            one == other
                || *self.below.entry((*one, *other)).or_insert_with(|| {
                    let more = &self.sets.all[*other as usize];
                    self.sets.all[*one as usize]
                        .iter()
                        .all(|number| more.binary_search(number).is_ok())
                })
        })
    }

    /// How the processes end for a simulator of the set that can go no further: its decision and one more, 1 if it is spent, and otherwise 0.
    fn ends(&self, set: u32, others: &[u32]) -> Vec<Vec<u64>> {
        let all: Vec<&Simulator> = others
            .iter()
            .map(|number| &self.simulators.all[*number as usize])
            .collect();
        let waits = |p: usize, goal: &Goal| match goal {
            Goal::Write(..) => false,
            Goal::Ask(round) => is_blocked(&all, self.agreement(p as u8, *round)),
            Goal::Done | Goal::Spent => true,
        };
        let end = |simulator: &Simulator, p: usize| match simulator.goals[p] {
            Goal::Done => 1 + simulator.outs[p],
            Goal::Spent => 1,
            Goal::Write(..) | Goal::Ask(_) => 0,
        };
        self.sets.all[set as usize]
            .iter()
            .map(|number| &self.simulators.all[*number as usize])
            .filter(|one| one.turn.is_none())
            .filter(|one| (0..).zip(&one.goals).all(|(p, goal)| waits(p, goal)))
            .map(|one| (0..self.spec.n).map(|p| end(one, p)).collect())
            .collect()
    }
}

struct Found {
    nodes: usize,
    steps: usize,
    outcomes: HashSet<Vec<u64>, Keyed>,
}

/// Adds the outcomes of a node in which at most this number of simulators have crashed.
fn note_outcomes(search: &Search, node: &Node, others: &[u32], crashes: usize, found: &mut Found) {
    let ends: Vec<Vec<Vec<u64>>> = node.iter().map(|set| search.ends(*set, others)).collect();
    let stopped = ends.iter().filter(|ends| ends.is_empty()).count();
    if stopped > crashes || stopped == node.len() {
        return;
    }
    // All that go on know the same of each process.
    found.outcomes.extend(ends.into_iter().flatten());
}

/// All nodes of the room, or nothing if they are more than the limit.
fn explore(search: &mut Search, crashes: usize, limit: usize) -> Option<Found> {
    let m = search.spec.m;
    let first: Vec<u32> = (0..m)
        .map(|i| {
            let opening = search.opening(i);
            search.number(opening)
        })
        .collect();
    let memory = search.memory(&first);
    let mut node = Node::new();
    for i in 0..m {
        let set = search.sets.number(vec![first[i]]);
        node.push(search.close(set, i, memory, &first));
    }
    let mut nodes = vec![node];
    let mut memories = vec![memory];
    let mut known: HashSet<Node, Keyed> = nodes.iter().cloned().collect();
    let mut dead = vec![false];
    let mut groups: HashMap<u32, Vec<u32>, Keyed> = HashMap::default();
    let mut found = Found {
        nodes: 0,
        steps: 0,
        outcomes: HashSet::default(),
    };
    let mut cursor = 0;
    while cursor < nodes.len() {
        if nodes.len() > limit {
            return None;
        }
        if dead[cursor] {
            cursor += 1;
            continue;
        }
        let node = nodes[cursor].clone();
        let others: Vec<u32> = node
            .iter()
            .map(|set| search.sets.all[*set as usize][0])
            .collect();
        note_outcomes(search, &node, &others, crashes, &mut found);
        for i in 0..m {
            for index in 0..search.sets.all[node[i] as usize].len() {
                let number = search.sets.all[node[i] as usize][index];
                let Some(next) = search.step_in(number, i, memories[cursor], &others) else {
                    continue;
                };
                if search.shown[next as usize] == search.shown[number as usize] {
                    continue;
                }
                let mut after = others.clone();
                after[i] = next;
                let memory = search.memory(&after);
                let mut to = Node::new();
                for q in 0..m {
                    let set = if q == i {
                        search.sets.number(vec![next])
                    } else {
                        node[q]
                    };
                    to.push(search.close(set, q, memory, &after));
                }
                found.steps += 1;
                let group = groups.entry(memory).or_default();
                if group
                    .iter()
                    .any(|other| search.is_below(&to, &nodes[*other as usize]))
                {
                    continue;
                }
                group.retain(|other| {
                    let stays = !search.is_below(&nodes[*other as usize], &to);
                    dead[*other as usize] |= !stays;
                    stays
                });
                if known.insert(to.clone()) {
                    group.push(nodes.len() as u32);
                    nodes.push(to);
                    memories.push(memory);
                    dead.push(false);
                }
            }
        }
        cursor += 1;
    }
    found.nodes = nodes.len();
    Some(found)
}

pub fn rooms(
    input: &Input,
    limit: usize,
    crashes: Option<usize>,
    out: &mut Vec<u8>,
) -> Result<Outcome, Ended> {
    let mut code = Code::default();
    let mut machine = Machine::new();
    let specs = Cursor::new(input).blocks(&mut code);
    let mut engine = Engine {
        code: &code,
        machine: &mut machine,
    };
    for spec in &specs {
        let mut search = Search {
            spec,
            engine: &mut engine,
            views: Numbered::new(),
            simulators: Numbered::new(),
            shown: Vec::new(),
            all_shown: Numbered::new(),
            memories: Numbered::new(),
            sets: Numbered::new(),
            moved: HashMap::default(),
            closed: HashMap::default(),
            below: HashMap::default(),
        };
        spec.name.put(out);
        match explore(&mut search, crashes.unwrap_or(spec.m - 1), limit) {
            None => out.extend_from_slice(b" more nodes than the limit\n"),
            Some(found) => {
                put_line_number(out, found.nodes as u64);
                out.extend_from_slice(b" nodes,");
                put_line_number(out, found.steps as u64);
                out.extend_from_slice(b" steps,");
                put_line_number(out, found.outcomes.len() as u64);
                out.extend_from_slice(b" outcomes\n");
            }
        }
    }
    Ok(Outcome::AllWell)
}
