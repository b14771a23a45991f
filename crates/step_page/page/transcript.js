// ---- a transcript and its verdicts: the events of each room, one by one

// The blocks of a transcript, with the line at which each begins, and its event lines.
function readTranscript(transcript) {
  const lines = transcript.split('\n');
  const first = lines.indexOf('events');
  const blocks = [];
  for (let from = 0; from < first;) {
    const found = lines.indexOf('end', from);
    const end = found < 0 || found > first ? first : found;
    blocks.push({ line: from + 1, ...readSpec(lines.slice(from, end)) });
    from = end + 1;
  }
  const events = lines.slice(first + 1).map((text, index) => ({ text, line: first + 2 + index })).filter(event => event.text !== '');
  return { blocks, events };
}

// An event by its line, NAME PROCESS DEED ..
function readEvent({ text, line }) {
  const [, process, deed, ...values] = text.split(' ');
  return { line, process: Number(process), deed, values, text: [deed, ...values].join(' '), because: '' };
}

// What `bgview why` answers: refused blocks, by their lines, and the verdicts on each room with the reasons.
function readVerdicts(answer) {
  const refused = new Map();
  const verdicts = new Map();
  let notes = [];
  for (const line of answer.split('\n')) {
    const block = /^line (\d+) refused /.exec(line);
    if (line.startsWith('    ')) {
      notes.push(line.trim());
    } else if (block) {
      refused.set(Number(block[1]), (notes = [line]));
    } else if (line !== '') {
      const name = line.split(' ')[0];
      notes = [line];
      verdicts.set(name, [...(verdicts.get(name) || []), notes]);
    }
  }
  return { refused, verdicts };
}

// The index of the event that a verdict names by its line, or -1.
function brokenBy(verdict, moments) {
  const [, line] = / line (\d+)$/.exec(verdict) || [];
  return moments.findIndex(moment => moment.line === Number(line));
}

// A room with its events; one that breaks its run or a task says why.
function judgedRoom(block, verdicts, events) {
  const moments = events.filter(event => event.text.startsWith(block.name + ' ')).map(readEvent);
  for (const [verdict, , ...reason] of verdicts) {
    const at = brokenBy(verdict, moments);
    if (at >= 0) moments[at].because = reason.join(' ');
  }
  const [run] = verdicts[0];
  return { ...block, moments, broken: run.includes(' is not a run') ? brokenBy(run, moments) : -1, verdicts: verdicts.map(([verdict]) => verdict), show: TRANSCRIPT };
}

function readJudged(transcript, answer) {
  const { blocks, events } = readTranscript(transcript);
  const { refused, verdicts } = readVerdicts(answer);
  const rooms = blocks.filter(block => !refused.has(block.line) && verdicts.has(block.name)).map(block => judgedRoom(block, verdicts.get(block.name), events));
  return { rooms, refused: [...refused.values()].map(notes => notes.join(': ')) };
}

// The writes of each process among the first events.
const writesOf = (room, count) => range(room.processes).map(p => room.moments.slice(0, count).filter(moment => moment.process === p && moment.deed === 'write'));
const rowOf = writes => writes.map(own => (own.length > 0 ? own[own.length - 1].values[0] : '.')).join(' ');

// What a process may do next after some events that are a run.
function nextOf(room, writes, process, count) {
  const last = room.moments.slice(0, count).findLast(moment => moment.process === process);
  if (!last) return 'write its first value';
  if (last.deed === 'write') return 'snap ' + rowOf(writes);
  if (last.deed === 'decide') return 'nothing: it has decided';
  return writes[process].length < room.rounds ? 'write or decide, as the protocol says' : 'decide, if the protocol says so: it has made all its writes';
}

// Of a long run as many events are drawn as there is room for, up to the current one and some more.
function drawnFrom(room, count) {
  let free = layout.width * 0.8;
  let first = Math.min(count + 3, room.moments.length);
  while (first > 0 && (free -= widthOf(room.moments[first - 1]) + 6) > 0) first--;
  return first;
}

function drawEventBox(room, index, count, x) {
  const moment = room.moments[index];
  const hue = index === room.broken ? 'var(--now)' : hueOf(moment.process);
  const filled = moment.deed === 'decide';
  const y = TOP + moment.process * EVENTS;
  return `<g opacity="${index < count ? 1 : 0.35}"><title>${escaped('line ' + moment.line)}</title>`
    + `<rect x="${x}" y="${y}" width="${widthOf(moment)}" height="20" rx="${moment.deed === 'snap' ? 10 : 3}" fill="${filled ? hue : 'var(--paper)'}" stroke="${hue}" stroke-width="${index === room.broken ? 3 : 1}"/>`
    + textAt(x + 5, y + 15, moment.text, `font-family="monospace" font-size="13" fill="${filled ? 'var(--paper)' : 'var(--ink)'}"`) + '</g>';
}

function drawEventLanes(room, count) {
  const first = drawnFrom(room, count);
  const height = TOP + room.processes * EVENTS + 6;
  const lanes = range(room.processes).map(p => textAt(2, TOP + p * EVENTS + 15, 'process ' + p, `fill="${hueOf(p)}"`) + `<path d="M 98 ${TOP + p * EVENTS + 10} H ${layout.width}" stroke="var(--rule)"/>`);
  let x = LEFT;
  let now = LEFT - 3;
  let boxes = '';
  for (let index = first; index < room.moments.length && x < layout.width - 60; index++) {
    if (room.moments[index].process < room.processes && (isFutureShown || index < count)) boxes += drawEventBox(room, index, count, x);
    x += widthOf(room.moments[index]) + 6;
    if (index < count) now = x - 3;
  }
  return `<svg viewBox="0 0 ${layout.width} ${height}" style="--least: ${height * 0.75}px" preserveAspectRatio="xMinYMin meet" role="img" aria-label="Events of the processes" font-family="Helvetica, Arial, sans-serif" font-size="14">${lanes.join('')}${drawNow(now, height)}${boxes}</svg>`;
}

// What a room of a transcript shows after some of its events.
const TRANSCRIPT = {
  sentence(room, count) {
    const moment = room.moments[count - 1];
    const verdicts = count === room.moments.length ? room.verdicts.map(verdict => `<small>${escaped(verdict)}</small>`).join('') : '';
    if (!moment) return 'Nothing has happened.' + verdicts;
    const broken = room.broken >= 0 && count > room.broken;
    const because = moment.because ? `<small class="because">${escaped(moment.because)}</small>` : broken ? '<small>after the event that breaks the run</small>' : '';
    return `line ${moment.line}: <b>process ${moment.process}</b>: <b>${escaped(moment.text)}</b>${because}${verdicts}`;
  },
  lanes: drawEventLanes,
  tables(room, count) {
    const known = room.broken >= 0 ? Math.min(count, room.broken) : count;
    const writes = writesOf(room, known);
    const moment = room.moments[count - 1];
    const head = [corner, headCell('writes', 'what it has written; the last one is in its cell'), headCell(known < count ? 'could do instead' : 'may do next', 'what the protocol and the memory allow')];
    const rows = range(room.processes).map(p => [processHead(p), cell(escaped(writes[p].map(write => write.values[0]).join(' ')), `the writes of process ${p}`, 'row', moment && moment.process === p && moment.deed === 'write' && 'now'),
      cell(escaped(nextOf(room, writes, p, known)), `what process ${p} may do`, 'text')]);
    return section('processes', 'Processes', table([head, ...rows]));
  },
  isSameTurn: (one, other) => one.process === other.process,
};
