// ---- tables

const processHead = p => headCell('p' + p, 'process ' + p);
const simulatorHead = i => headCell('simulator ' + i, `level and proposal of simulator ${i}`);

function stepNumbers(room, state, moment) {
  const touched = (i, p) => moment && (moment.letter === 'S' || (moment.letter === '+' && moment.simulator === i && moment.process === p));
  const decides = i => moment && moment.simulator === i && Number.isInteger(moment.access?.decides);
  const head = [corner, ...range(room.processes).map(processHead), headCell('decision', DECISION_HINT)];
  const rows = range(room.simulators).map(i => {
    const hasCrashed = state.crashed.has(i);
    const counts = range(room.processes).map(p => countedBy(state, i, p));
    return [headCell(`simulator ${i}${hasCrashed ? ' \u2715' : ''}`, `how many writes of each process simulator ${i} has counted${hasCrashed ? '; it has crashed' : ''}`),
      ...counts.map((number, p) => cell(number, countHint(i, p, number), touched(i, p) && 'now')),
      cell(state.decisions.get(i) ?? '', decisionHint(i, state.decisions.get(i)), decides(i) && 'now')];
  });
  return section('numbers', 'Simulators: step numbers and decision', table([head, ...rows]));
}

// The state of an agreement: open, fixed, resolved, or blocked for ever.
function resultOf(state, chosen, levels) {
  const inside = range(levels.length).filter(i => levels[i] === 1);
  const blockers = inside.filter(i => state.crashed.has(i));
  const are = inside.length === 1 ? 'is' : 'are';
  if (isResolved(levels)) return `resolved: the proposal of simulator ${chosen.simulator}`;
  if (blockers.length > 0) return `blocked for ever by ${named(blockers)}`;
  if (chosen) return `chosen: simulator ${chosen.simulator}'s; not readable while ${named(inside)} ${are} inside`;
  return inside.length > 0 ? `open: ${named(inside)} ${are} inside` : 'no proposal stands';
}

function agreementRow(room, state, moment, agreement) {
  const { process, round, chosen } = agreement;
  const levels = levelsOf(state, room, agreement);
  const here = moment && moment.process === process && moment.round === round;
  const cells = range(room.simulators).map(i => {
    const row = proposalOf(state, room, i, agreement);
    const touched = here && ((moment.simulator === i && (round === 0 ? 'W120' : 'V120').includes(moment.letter)) || '?A'.includes(moment.letter));
    const entries = Array.isArray(row) ? row.map(number => number || '.').join(' ') : row;
    const proposal = row === null ? '' : ` <span class="row ${chosen && chosen.simulator !== i ? 'lost' : ''}">\u27e8${entries}\u27e9</span>`;
    const fate = !chosen ? '' : chosen.simulator === i ? '; it is chosen' : '; another one is chosen';
    return cell(`${levels[i]}${proposal}`, levelHint(i, process, round, levels[i], row, fate), 'level' + levels[i], chosen && chosen.simulator === i && 'chosen', touched && 'now');
  });
  const result = resultOf(state, chosen, levels);
  return [headCell(`p${process} r${round}`, agreementHint(process, round)), ...cells, cell(result, resultHint(result), 'text')];
}

function agreements(room, state, moment) {
  const ordered = [...state.agreements.values()].sort((one, other) => one.round - other.round || one.process - other.process);
  const head = [corner, ...range(room.simulators).map(simulatorHead), headCell('result', 'whether a proposal is chosen, and may be read')];
  return section('agreements', 'Agreements: level and proposal of each simulator', table([head, ...ordered.map(agreement => agreementRow(room, state, moment, agreement))]));
}

// What has become of a process by now, as a report says it, with all simulators that hold it.
function standingOf(room, state, process) {
  const decision = decisionOf(state, room, process);
  if (decision !== undefined) return `decided ${decision}`;
  if (state.spent.has(process) && isResolved(levelsOf(state, room, { process, round: room.rounds }))) return 'spent';
  const own = [...state.agreements.values()].filter(agreement => agreement.process === process);
  const holders = range(room.simulators).filter(i => state.crashed.has(i) && own.some(agreement => levelsOf(state, room, agreement)[i] === 1));
  if (holders.length > 0) return `held by ${named(holders)}`;
  return state.stopped.size === room.simulators ? 'no simulator left' : 'may still go on';
}

// The values that processes wrote, by round.
function values(room, state, moment) {
  const valued = range(room.processes).map(p => range(room.rounds).map(index => valueOf(state, room, p, index + 1)));
  const rounds = Math.max(0, ...valued.map(row => row.findLastIndex(value => value !== undefined) + 1));
  const place = moment?.access?.place;
  const touched = (p, round) => place?.kind === 'value' && place.process === p && place.round === round;
  const head = [corner, ...range(rounds).map(index => headCell('r' + (index + 1), 'round ' + (index + 1)))];
  const rows = valued.map((row, p) => [processHead(p), ...range(rounds).map(index => cell(row[index] ?? '', valueHint(p, index + 1, row[index]), touched(p, index + 1) && 'now'))]);
  return section('values', 'Values', table([head, ...rows]));
}

// An event as the table has it, which says so if the report of this moment doesn't have it yet.
const eventText = event => escaped(event.text) + (event.isReported ? '' : ' <small>(not in a report)</small>');

function processes(room, state) {
  const events = eventsOf(state, room);
  const rows = range(room.processes).map(p => {
    const standing = standingOf(room, state, p);
    return [processHead(p), cell(events.filter(event => event.process === p).map(eventText).join('; '), EVENTS_HINT, 'text', 'row'), cell(standing, stateHint(standing), 'text')];
  });
  return section('processes', 'Simulated processes', table([[corner, headCell('events', EVENTS_HINT), headCell('state', 'what has become of it')], ...rows]));
}

// What a simulated room shows after a number of moments.
const SIMULATION = {
  sentence(room, count) {
    const moment = room.moments[count - 1];
    if (!moment) return 'Nobody has taken a step.';
    if (moment.crash) return `<b>simulator ${moment.simulator}</b> crashes`;
    const { effect, decision, end, obstacle } = moment.notes;
    const more = [effect, decision, end, obstacle].filter(Boolean).map(text => `<small>${escaped(text)}</small>`).join('');
    return `<b>${escaped(moment.name)}</b>: ${escaped(moment.operation)} \u2192 <b>${escaped(moment.shows)}</b>${more}`;
  },
  lanes: drawLanes,
  tables(room, count) {
    const state = stateAt(room, count);
    const moment = room.moments[count - 1];
    return stepNumbers(room, state, moment) + agreements(room, state, moment) + values(room, state, moment) + processes(room, state) + outcomes(room, count);
  },
  isSameTurn: (one, other) => one.simulator === other.simulator && one.turn === other.turn && !one.crash === !other.crash,
};
