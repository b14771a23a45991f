//! `nodes`: how many nodes stand for all states of each room's runs, and how many outcomes there are if nobody stops. A node is what the memory holds, and
//! what each process may do there. This is the search of `bgview outcomes` in plain Rust, to compare counts, times and instructions; it keeps no runs.

use std::collections::{HashMap, HashSet};

use crate::lang::{Action, Code, Engine, Machine};
use crate::spec::{Cursor, Spec};
use crate::text::{Input, Keyed, put_line_number};
use crate::{Ended, Outcome};

/// What a process may do next that others can notice, or how it has ended.
#[derive(Clone, Copy, PartialEq, Eq, Hash, PartialOrd, Ord)]
enum Choice {
    Write { round: u8, value: u32 },
    Spent,
    Decided(u32),
}

/// A process in a node: its last value; the rounds in which it may be about to take its snapshot, a bit each; and the number of the set of its choices.
#[derive(Clone, Copy, PartialEq, Eq, Hash)]
struct Local {
    cell: Option<u32>,
    rounds: u16,
    choices: u32,
}

/// Different values, by numbers.
pub struct Numbered<T> {
    pub all: Vec<T>,
    numbers: HashMap<T, u32, Keyed>,
}

impl<T: Clone + Eq + std::hash::Hash> Numbered<T> {
    pub fn new() -> Numbered<T> {
        Numbered {
            all: Vec::new(),
            numbers: HashMap::default(),
        }
    }

    pub fn number(&mut self, value: T) -> u32 {
        if let Some(number) = self.numbers.get(&value) {
            return *number;
        }
        let number = self.all.len() as u32;
        self.all.push(value.clone());
        self.numbers.insert(value, number);
        number
    }
}

/// The numbers of the processes' local states, and zeros.
type Node = [u32; 16];

struct Search<'a, 'e> {
    spec: &'a Spec,
    engine: &'a mut Engine<'e>,
    sets: Numbered<Vec<Choice>>,
    locals: Numbered<Local>,
    /// What two nodes have to share for one to be below the other: the memory.
    memories: Numbered<(Option<u32>, bool)>,
}

struct Row {
    cells: [u32; 16],
    present: u16,
}

impl Search<'_, '_> {
    fn with(&mut self, set: u32, choice: Choice) -> u32 {
        let mut choices = self.sets.all[set as usize].clone();
        match choices.binary_search(&choice) {
            Ok(_) => set,
            Err(at) => {
                choices.insert(at, choice);
                self.sets.number(choices)
            }
        }
    }

    fn first(&mut self) -> Node {
        let mut node = [0; 16];
        for (p, number) in node.iter_mut().enumerate().take(self.spec.n) {
            let value = self
                .spec
                .protocol
                .first(self.engine, self.spec.inputs[p], p);
            let choices = self.with(0, Choice::Write { round: 1, value });
            *number = self.locals.number(Local {
                cell: None,
                rounds: 1,
                choices,
            });
        }
        node
    }

    fn row(&self, node: &Node) -> Row {
        let mut row = Row {
            cells: [0; 16],
            present: 0,
        };
        for (p, number) in node.iter().enumerate().take(self.spec.n) {
            if let Some(value) = self.locals.all[*number as usize].cell {
                row.cells[p] = value;
                row.present |= 1 << p;
            }
        }
        row
    }

    /// Adds what process `p` may do after a snapshot of this row. A write of the value that is there is noticed by nobody.
    fn observe(&mut self, row: &Row, p: usize, mut local: Local) -> Local {
        let spec = self.spec;
        for round in 1..=spec.rounds {
            if local.rounds >> round & 1 == 0 {
                continue;
            }
            let action = spec.protocol.next(
                self.engine,
                spec.inputs[p],
                p,
                round,
                &row.cells,
                row.present,
            );
            let choice = match action {
                Action::Decide(value) => Choice::Decided(value),
                Action::Write(_) if round == spec.rounds => Choice::Spent,
                Action::Write(value) if local.cell == Some(value) => {
                    local.rounds |= 1 << (round + 1);
                    continue;
                }
                Action::Write(value) => Choice::Write {
                    round: round as u8 + 1,
                    value,
                },
            };
            local.choices = self.with(local.choices, choice);
        }
        local
    }

    /// The node after a write of process `p`.
    fn after(&mut self, node: &Node, p: usize, round: u8, value: u32) -> Node {
        let mut row = self.row(node);
        row.cells[p] = value;
        row.present |= 1 << p;
        let mut next = *node;
        for q in 0..self.spec.n {
            let local = if q == p {
                Local {
                    cell: Some(value),
                    rounds: 1 << round,
                    choices: 0,
                }
            } else {
                self.locals.all[node[q] as usize]
            };
            if local.rounds != 1 {
                let local = self.observe(&row, q, local);
                next[q] = self.locals.number(local);
            }
        }
        next
    }

    fn memory(&mut self, node: &Node) -> Node {
        let mut memory = [0; 16];
        for p in 0..self.spec.n {
            let local = self.locals.all[node[p] as usize];
            memory[p] = self.memories.number((local.cell, local.rounds == 1));
        }
        memory
    }

    /// Whether each state in the node is in the other one too, which has the same memory.
    fn is_below(&self, node: &Node, other: &Node) -> bool {
        (0..self.spec.n).all(|p| {
            let (one, two) = (
                self.locals.all[node[p] as usize],
                self.locals.all[other[p] as usize],
            );
            let more = &self.sets.all[two.choices as usize];
            node[p] == other[p]
                || one.rounds & !two.rounds == 0
                    && self.sets.all[one.choices as usize]
                        .iter()
                        .all(|choice| more.binary_search(choice).is_ok())
        })
    }

    /// For each process the number of the set of its ends, if it has one.
    fn ends(&mut self, node: &Node) -> Option<Node> {
        let mut ends = [0; 16];
        for p in 0..self.spec.n {
            let choices = &self.sets.all[self.locals.all[node[p] as usize].choices as usize];
            let ended: Vec<Choice> = choices
                .iter()
                .copied()
                .filter(|choice| !matches!(choice, Choice::Write { .. }))
                .collect();
            if ended.is_empty() {
                return None;
            }
            ends[p] = self.sets.number(ended);
        }
        Some(ends)
    }
}

struct Found {
    nodes: usize,
    writes: usize,
    /// What the processes of the nodes may end with, each once.
    boxes: HashSet<Node, Keyed>,
}

/// All nodes of the room, or nothing if they are more than the limit.
fn explore(search: &mut Search, limit: usize) -> Option<Found> {
    let mut nodes = vec![search.first()];
    let mut known: HashSet<Node, Keyed> = nodes.iter().copied().collect();
    let mut dead = vec![false];
    let mut groups: HashMap<Node, Vec<u32>, Keyed> = HashMap::default();
    let mut found = Found {
        nodes: 0,
        writes: 0,
        boxes: HashSet::default(),
    };
    let mut cursor = 0;
    while cursor < nodes.len() {
        if nodes.len() > limit {
            return None;
        }
        let node = nodes[cursor];
        if !dead[cursor] {
            found.boxes.extend(search.ends(&node));
            for p in 0..search.spec.n {
                let choices = search.locals.all[node[p] as usize].choices as usize;
                for index in 0..search.sets.all[choices].len() {
                    let Choice::Write { round, value } = search.sets.all[choices][index] else {
                        continue;
                    };
                    let next = search.after(&node, p, round, value);
                    found.writes += 1;
                    let group = groups.entry(search.memory(&next)).or_default();
                    if group
                        .iter()
                        .any(|other| search.is_below(&next, &nodes[*other as usize]))
                    {
                        continue;
                    }
                    group.retain(|other| {
                        let stays = !search.is_below(&nodes[*other as usize], &next);
                        dead[*other as usize] |= !stays;
                        stays
                    });
                    if known.insert(next) {
                        group.push(nodes.len() as u32);
                        nodes.push(next);
                        dead.push(false);
                    }
                }
            }
        }
        cursor += 1;
    }
    found.nodes = nodes.len();
    Some(found)
}

/// All outcomes in which each process has ended.
fn complete(search: &Search, boxes: &HashSet<Node, Keyed>) -> usize {
    let mut outcomes: HashSet<Vec<Choice>, Keyed> = HashSet::default();
    for ends in boxes {
        let mut partial = vec![Vec::with_capacity(search.spec.n)];
        for number in &ends[..search.spec.n] {
            let set = &search.sets.all[*number as usize];
            partial = partial
                .iter()
                .flat_map(|one: &Vec<Choice>| {
                    set.iter().map(|end| [one.as_slice(), &[*end]].concat())
                })
                .collect();
        }
        outcomes.extend(partial);
    }
    outcomes.len()
}

pub fn nodes(
    input: &Input,
    limit: usize,
    brief: bool,
    out: &mut Vec<u8>,
) -> Result<Outcome, Ended> {
    let mut code = Code::default();
    let mut machine = Machine::new();
    let specs = Cursor::new(input).blocks(&mut code);
    let mut engine = Engine {
        code: &code,
        machine: &mut machine,
    };
    for spec in &specs {
        let mut search = Search {
            spec,
            engine: &mut engine,
            sets: Numbered::new(),
            locals: Numbered::new(),
            memories: Numbered::new(),
        };
        search.sets.number(Vec::new());
        spec.name.put(out);
        match explore(&mut search, limit) {
            None => out.extend_from_slice(b" more nodes than the limit\n"),
            Some(found) => {
                put_line_number(out, found.nodes as u64);
                out.extend_from_slice(b" nodes,");
                put_line_number(out, found.writes as u64);
                out.extend_from_slice(b" writes");
                if !brief {
                    out.push(b',');
                    put_line_number(out, complete(&search, &found.boxes) as u64);
                    out.extend_from_slice(b" outcomes");
                }
                out.push(b'\n');
            }
        }
    }
    Ok(Outcome::AllWell)
}
