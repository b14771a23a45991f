// ---- hints: what a cell of a table means, in words

const LEVELS = ['level 0: outside', 'level 1: in the unsafe section', 'level 2: its proposal counts'];

// A row of step numbers in words: how many writes of each process it has.
const writesIn = row => listed(row.map((number, p) => `${number === 0 ? 'no write' : many(number, 'write')} of process ${p}`));

const agreementHint = (process, round) => `agreement (${process},${round}): on the ${round === 0 ? `input of process ${process}` : `snapshot of process ${process} in round ${round}`}`;

const countHint = (simulator, process, number) => `step(${simulator},${process}): simulator ${simulator} has counted ${many(number, 'write')} of process ${process}`;

const DECISION_HINT = 'what a simulator has decided: the first decision of a process that it stored';
const decisionHint = (simulator, decision) => (decision === undefined ? `simulator ${simulator} has not decided` : `simulator ${simulator} has decided ${decision}`);

const proposedIn = row => (Array.isArray(row) ? `a snapshot with ${writesIn(row)}` : `the input ${row}`);
const proposalHint = (simulator, row, fate) => (row === null ? `; simulator ${simulator} proposes nothing yet` : `; it proposes ${proposedIn(row)}${fate}`);

const levelHint = (simulator, process, round, level, row, fate) => `simulator ${simulator} in agreement (${process},${round}): ${LEVELS[level]}${proposalHint(simulator, row, fate)}`;

// What the words of a result mean, by their first one.
const RESULTS = {
  resolved: 'some level is 2 and none is 1: every simulator may read the proposal, which can\'t change any more',
  blocked: 'a simulator crashed in the unsafe section, so some level is 1 for ever: no simulator may read a proposal',
  chosen: 'the choice can\'t change any more, but no simulator may read it while some level is 1',
  open: 'some level is 1: more than one proposal may still be chosen, or none counts yet',
  no: 'no level is 2',
};
const resultHint = result => RESULTS[/^\w+/.exec(result)[0]];

const valueHint = (process, round, value) => (value === undefined ? `process ${process} has not written in round ${round}` : `process ${process} writes ${value} in round ${round}`);

// What the words of a state mean, by their first one.
const STATES = {
  decided: 'it has ended',
  spent: 'it is out of rounds, and its protocol asks for one more write',
  held: 'it is blocked: a simulator crashed in the unsafe section of an agreement on its snapshot',
  may: 'it has not decided, and some simulator has turns left',
  no: 'each simulator has crashed or ended its last turn',
};
const stateHint = state => STATES[/^\w+/.exec(state)[0]];

const EVENTS_HINT = 'what the process has done, in the order in which it took effect: the values in a snapshot are those that were written, . is none';
