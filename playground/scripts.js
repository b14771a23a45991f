// ---- scripts as texts: their commands, what each of them did, and other scripts made of them

const MOST_STEPS = 65535; // in one command `step`

const withEnd = text => (text === '' || text.endsWith('\n') ? text : text + '\n');

// A file of rooms as the script that opens them. A block begins with `bgsim`, or that of a reduction with `reduction`.
const openingScript = rooms => withEnd(rooms).replace(/^(?:bgsim|reduction) \d+$/gm, 'open\n$&');

// The blocks of a text, as a file of rooms.
const roomsIn = text => [...withEnd(text).matchAll(/^(?:bgsim|reduction) \d+\n[^]*?^end\n/gm)].map(found => found[0]).join('');

// The commands of a script in order, each with its lines and the name of its room. A block after the line `open` is one command.
function commandsOf(script) {
  const lines = withEnd(script).split('\n').slice(0, -1);
  const commands = [];
  for (let from = 0; from < lines.length; from++) {
    if (lines[from] === '') continue;
    const isOpen = lines[from] === 'open';
    const end = isOpen ? lines.indexOf('end', from) : from;
    const own = lines.slice(from, end < 0 ? lines.length : end + 1);
    const name = isOpen ? readSpec(own).name : own[0].split(' ')[1];
    commands.push({ lines: own, name });
    from += own.length - 1;
  }
  return commands;
}

const hasReduction = script => commandsOf(script).some(({ lines }) => lines[0] === 'open' && lines[1] === 'reduction 1');

// Whether the last block has no line `end`, so that whatever is written after it belongs to it.
const isOpenEnded = script => commandsOf(script).some(({ lines }) => lines[0] === 'open' && lines.at(-1) !== 'end');

// What each command of a script did, by what `bgview trace --json` answers: its reply, its room by its place among the rooms that the script opens, and
// for each step and crash that it brought the number of the simulator.
function effectsOf(answer) {
  const open = new Map();
  let opened = 0;
  return readReplies(answer).map(({ said: { reply, room, simulator, last }, taken }) => {
    if (reply === 'opened') open.set(room, opened++);
    const simulators = reply === 'crash' && last === 'crashed' ? [simulator] : taken.map(step => step.simulator);
    return { reply, room: reply === 'refused' ? undefined : open.get(room), simulators };
  });
}

// Steps as commands: one for each stretch of a simulator.
function stepLines(name, simulators) {
  const stretches = [];
  for (const simulator of simulators) {
    const last = stretches.at(-1);
    if (last?.simulator === simulator && last.steps < MOST_STEPS) last.steps++;
    else stretches.push({ simulator, steps: 1 });
  }
  return stretches.map(({ simulator, steps }) => `step ${name} ${simulator} ${steps}`);
}

// A script with the first moments of one room alone. The commands to other rooms stay, since no room depends on them.
function scriptUpTo(script, effects, room, count) {
  const commands = commandsOf(script);
  const begin = effects.findIndex(effect => effect.room === room);
  const { name } = commands[begin];
  let left = count;
  const kept = commands.flatMap((command, index) => {
    if (command.name !== name || index <= begin) return command.lines;
    if (left === 0) return [];
    const { simulators } = effects[index];
    const done = simulators.slice(0, left);
    left -= done.length;
    return done.length === simulators.length ? command.lines : stepLines(name, done);
  });
  return kept.map(line => line + '\n').join('');
}

const withLine = (script, line) => `${withEnd(script)}${line}\n`;

// A script with more steps of a simulator at its end. If its last command is a step of the same simulator, the two are one.
function withSteps(script, name, simulator, steps) {
  const lines = withEnd(script).split('\n').slice(0, -1);
  const [word, room, number, taken] = lines.at(-1).split(' ');
  const isSame = word === 'step' && room === name && Number(number) === simulator && Number(taken) + steps <= MOST_STEPS;
  const command = `step ${name} ${simulator} ${isSame ? Number(taken) + steps : steps}`;
  return withLine(lines.slice(0, isSame ? -1 : undefined).join('\n'), command);
}
