// ---- a simulated room after a number of moments: the words of its memory, and what follows from them

const keyOf = (...numbers) => numbers.join(',');

function emptyState() {
  return {
    words: new Map(), // of the memory, by kind and numbers of their place: what the last step on it left there, for each memory word
    agreements: new Map(), // by process and round: which proposal is chosen for good, and since which moment
    read: new Map(), // by simulator, process and round: the moment at which the snapshot takes effect if it is chosen
    events: [], // those that took effect for certain
    decisions: new Map(), // by simulator: what it has decided
    crashed: new Set(), // simulators
    stopped: new Set(), // simulators that have crashed or ended their last turn
    spent: new Set(), // processes that are out of rounds once the agreement of their last round is resolved
  };
}

const keyOfPlace = ({ kind, simulator, process, round }) => keyOf(kind, simulator, process, round);
const wordsAt = (state, place) => Object.values(state.words.get(keyOfPlace(place)) ?? {});

function store(state, { place, after }) {
  const key = keyOfPlace(place);
  state.words.set(key, { ...state.words.get(key), [place.word ?? 0]: after });
}

// The agreement that a step is on, with its levels or a proposal, which in the round 0 of a reduction is an input: the first time that a proposal is chosen for good is kept.
function noteAgreement(state, { access: { place: { kind, process, round } }, agreement }, at) {
  if (kind !== 'levels' && kind !== 'view' && !(kind === 'value' && round === 0)) return;
  const key = keyOf(process, round);
  const known = state.agreements.get(key) ?? { process, round, chosen: null };
  const isChosen = known.chosen === null && agreement !== null && agreement.chosen !== null;
  state.agreements.set(key, isChosen ? { ...known, chosen: { simulator: agreement.chosen, at } } : known);
}

function noteEffect(state, { simulator, process, round, effect }, at) {
  if (effect?.event === 'snap') state.read.set(keyOf(simulator, process, round), at);
  else if (effect) state.events.push({ at, known: at, process: effect.process, text: `${effect.event} ${effect.value}`, isReported: true });
}

// The state after one more moment, whose number is `at`.
function apply(state, room, moment, at) {
  moment.spent.forEach(process => state.spent.add(process));
  if (moment.crash || (moment.turn === room.turns && moment.end)) state.stopped.add(moment.simulator);
  if (moment.crash) {
    state.crashed.add(moment.simulator);
    return;
  }
  store(state, moment.access);
  if (moment.access.decides !== null) state.decisions.set(moment.simulator, moment.access.decides);
  noteAgreement(state, moment, at);
  noteEffect(state, moment, at);
}

function stateAt(room, count) {
  const state = emptyState();
  room.moments.slice(0, count).forEach((moment, at) => apply(state, room, moment, at));
  return state;
}

// How many writes of a process a simulator has counted. If a memory takes several words, one of them has this number, and the others have 0.
const countedBy = (state, simulator, process) => Math.max(0, ...wordsAt(state, { kind: 'steps' }).map(rows => rows[simulator][process]));

const levelsOf = (state, room, { process, round }) => wordsAt(state, { kind: 'levels', process, round })[0] ?? range(room.simulators).map(() => 0);

// An agreement is resolved, so that its result can be read, once a simulator is at level 2 and none is at level 1.
const isResolved = levels => levels.includes(2) && !levels.includes(1);

// What a simulator proposes: of each process the number of its writes, or in the round 0 of a reduction the process's input; or null.
function proposalOf(state, room, simulator, { process, round }) {
  if (round === 0) return wordsAt(state, { kind: 'value', simulator, process, round }).slice(0, 1).concat([null])[0];
  const rows = wordsAt(state, { kind: 'view', simulator, process, round }).flat();
  return rows.length === 0 ? null : range(room.processes).map(p => Math.max(...rows.map(row => row[p])));
}

// The word that some simulator has at a place. All that have it have the same.
const wordOfAny = (state, room, place) => range(room.simulators).flatMap(simulator => wordsAt(state, { ...place, simulator }))[0];
const valueOf = (state, room, process, round) => wordOfAny(state, room, { kind: 'value', process, round });
const decisionOf = (state, room, process) => wordOfAny(state, room, { kind: 'out', process });

// A report has the snapshot of an agreement once that is resolved, or something rests on it: a later write of the process, or its decision.
function isReported(state, room, { process, round }) {
  const writes = Math.max(...range(room.simulators).map(simulator => countedBy(state, simulator, process)));
  return isResolved(levelsOf(state, room, { process, round })) || round < writes || decisionOf(state, room, process) !== undefined;
}

// The snapshots that are agreed on, each at the moment at which the chosen proposal was read.
function snapshotsOf(state, room) {
  return [...state.agreements.values()].filter(({ round, chosen }) => round > 0 && chosen !== null).map(agreement => {
    const { process, round, chosen: { simulator, at } } = agreement;
    const shown = proposalOf(state, room, simulator, agreement).map((number, p) => (number === 0 ? '.' : valueOf(state, room, p, number)));
    return { at: state.read.get(keyOf(simulator, process, round)), known: at, process, text: 'snap ' + shown.join(' '), isReported: isReported(state, room, agreement) };
  });
}

// All events of a state's processes, in the order in which they take effect.
const eventsOf = (state, room) => [...state.events, ...snapshotsOf(state, room)].sort((one, other) => one.at - other.at);
