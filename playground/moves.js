// ---- moves: what each simulator would do next at the moment that is shown, and buttons to let it do so

const lastLine = text => text.slice(text.lastIndexOf('\n', text.length - 2) + 1);

// The steps that a simulator takes next, at most this many, and the answer to its last try: it is let go on a copy of the script.
function stepsAhead(script, name, simulator, most) {
  const lines = tracedScript(withLine(script, `step ${name} ${simulator} ${most}`)).text.trimEnd().split('\n');
  const reply = lines.findLastIndex(line => line.includes('"reply":'));
  return { steps: lines.slice(reply + 1).map(line => JSON.parse(line)), last: JSON.parse(lines[reply]).last };
}

// How many steps a simulator takes to the end of its turn.
function turnLength(script, name, simulator) {
  for (let most = 32; ; most = Math.min(2 * most, MOST_STEPS)) {
    const { steps } = stepsAhead(script, name, simulator, most);
    const end = steps.findIndex(step => step.end !== null);
    if (end >= 0 || steps.length < most || most === MOST_STEPS) return end >= 0 ? end + 1 : steps.length;
  }
}

// The room that is shown, and the script up to the moment that is shown; null if there is none to go on with.
function momentShown() {
  const room = runs[0]?.rooms[current];
  if (!room || room.show !== SIMULATION || isOpenEnded(reading.script)) return null;
  const reached = Math.min(count, room.moments.length);
  const isClosed = reading.effects.some(effect => effect.reply === 'closed' && effect.room === current);
  const isPast = reached < room.moments.length;
  return { room, isPast, script: isPast || isClosed ? scriptUpTo(reading.script, reading.effects, current, reached) : reading.script };
}

function moverOf(script, room, simulator, hasCrashed) {
  const { steps: [step], last } = hasCrashed ? { steps: [], last: 'crashed' } : stepsAhead(script, room.name, simulator, 1);
  const next = step ? `next: ${step.operation}` : { crashed: 'has crashed', idle: 'idle: nothing is left to do', 'out of turns': 'has no turns left' }[last];
  const turn = step ? `turn ${step.turn}, process ${step.process}, round ${step.round}` : '';
  const button = (kind, isOff, title) => `<button data-move="${kind}" data-simulator="${simulator}" aria-label="simulator ${simulator}: ${kind}" title="${title}"${isOff ? ' disabled' : ''}>${kind}</button>`;
  return `<div class="mover${step ? '' : ' stuck'}"><b>simulator ${simulator}</b>`
    + button('step', !step, `One atomic step (key ${simulator})`) + button('turn', !step, `To the end of its turn (Shift and ${simulator})`) + button('crash', hasCrashed, `It takes no more steps (x, and then ${simulator})`)
    + `<small>${escaped(next)}</small><small>${escaped(turn)}</small></div>`;
}

function showMoves() {
  const moment = momentShown();
  at('moves').hidden = !moment;
  at('place').textContent = moment?.isPast ? 'A move from here begins a new branch.' : isOpenEnded(reading.script) ? 'No simulator can move while the last block has no line `end`.' : '';
  if (!moment) {
    at('moves').innerHTML = '';
    return;
  }
  const focus = document.activeElement?.dataset?.move && { ...document.activeElement.dataset };
  const { room, script } = moment;
  const done = room.moments.slice(0, count);
  at('moves').innerHTML = range(room.simulators).map(simulator => moverOf(script, room, simulator, done.some(step => step.crash && step.simulator === simulator))).join('')
    + '<button data-move="settle" title="Let all simulators go as far as they can, without crashes, and report (s)">settle and report</button>';
  if (focus) at('moves').querySelector(`[data-move="${focus.move}"]${focus.simulator ? `[data-simulator="${focus.simulator}"]` : ''}`)?.focus();
}

// The script after a move; null if the simulator can't make it.
function scriptAfter(kind, simulator, { script, room: { name } }) {
  if (kind === 'crash') return withLine(script, `crash ${name} ${simulator}`);
  if (kind === 'settle') return withLine(withLine(script, `settle ${name}`), `report ${name}`);
  const steps = kind === 'turn' ? turnLength(script, name, simulator) : stepsAhead(script, name, simulator, 1).steps.length;
  return steps > 0 ? withSteps(script, name, simulator, steps) : null;
}

// A move from an earlier moment begins a branch: the run before is then shown next to the new one.
function move(kind, simulator) {
  const moment = momentShown();
  if (!moment) return;
  const text = scriptAfter(kind, simulator, moment);
  if (text !== null) change({ text, before: moment.isPast ? reading.script : paper.before }, Infinity);
}
