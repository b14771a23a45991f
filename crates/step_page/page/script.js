// ---- a script and its trace: the moments of each room

// The blocks of a script's entries, in order: the lines of one after the line `open`, and null for a command.
function blocksOf(script) {
  const lines = script.split('\n');
  const blocks = [];
  for (let at = 0; at < lines.length; at++) {
    if (lines[at] === 'open') {
      const found = lines.indexOf('end', at);
      const end = found < 0 ? lines.length : found; // a block without an end takes all that is left
      blocks.push(lines.slice(at + 1, end));
      at = end;
    } else if (lines[at] !== '') {
      blocks.push(null);
    }
  }
  return blocks;
}

// The replies of a trace, each with the steps that its command took: a trace has a line of JSON for each reply and for each step.
function readReplies(trace) {
  const replies = [];
  for (const line of trace.split('\n').filter(Boolean)) {
    const said = JSON.parse(line);
    if (said.reply) replies.push({ said, taken: [] });
    else replies.at(-1).taken.push(said);
  }
  return replies;
}

// The letter of a step by its line, as in the pictures of `bgview draw`. A step that enters or leaves an agreement has the level that it comes to.
const LETTERS = { propose: 'W', input: 'r', write: 'W', raise: '+', snap: 'S', show: 'V', look: '?', ask: 'A', view: 'G', values: 'r', out: 'D' };
const letterOf = ({ simulator, access: { line, after } }) => LETTERS[line] ?? String(after[simulator]);

// A step as a moment of its room. `spent`: the processes of which the trace says at this moment that they are out of rounds.
function momentOf(step) {
  const { simulator, turn, process, round, end } = step;
  return { ...step, name: `simulator ${simulator}, turn ${turn}, process ${process}, round ${round}`, letter: letterOf(step), spent: end?.state === 'spent' ? [process] : [] };
}

// What a reply, and the steps of its command, add to the moments of a room.
function addMoments(moments, { reply, simulator, last, processes }, taken) {
  for (const step of taken) moments.push(momentOf(step));
  if (reply === 'crash' && last === 'crashed') moments.push({ crash: true, simulator, spent: [] });
  if (reply === 'report') moments.at(-1)?.spent.push(...range(processes.length).filter(p => processes[p].state === 'spent'));
}

// The name of a command may be no text.
const refusalText = ({ line, room, fault, words }) => `${line ? `line ${line}` : room ?? '\ufffd'} refused ${fault.join(' ')}: ${words}`;

// All rooms that the script opened, in order, and what was refused. `open` says, if anything, which outcomes are open after each command.
function readScript(script, trace, open = '') {
  const blocks = blocksOf(script);
  const rooms = [];
  const openings = readOpenings(open);
  const byName = new Map();
  const refused = [];
  readReplies(trace).forEach(({ said, taken }, index) => {
    if (said.reply === 'refused') {
      refused.push(refusalText(said));
      return;
    }
    if (said.reply === 'opened') {
      rooms.push({ ...readSpec(blocks[index]), moments: [], openings: [], show: SIMULATION });
      byName.set(said.room, rooms.at(-1));
    } else {
      addMoments(byName.get(said.room).moments, said, taken);
    }
    if (openings[index]?.room) addOpening(byName.get(said.room), openings[index]);
  });
  return { rooms, refused };
}
