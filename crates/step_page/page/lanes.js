// ---- drawing the lanes of simulators and processes

const SQUARE = 27, LANE = 42, EVENTS = 26, LEFT = 104, TOP = 16;

// How many moments of a long run are drawn, and how wide the picture is at least: alone, next to another run, and on a phone.
const WIDE = { columns: 31, width: 1030 };
const NARROW = { columns: 15, width: 596 };
const PHONE = { columns: 10, width: 434 };
let layout = WIDE;
let isFutureShown = true; // paler than what has passed

// The first moment that is drawn: all of a short run, and a part of a long one, around the current moment.
const firstDrawn = (total, count) => Math.max(0, Math.min(count - Math.ceil(layout.columns / 2), total - layout.columns));

const textAt = (x, y, text, more = '') => `<text x="${x}" y="${y}" ${more}>${escaped(text)}</text>`;

function drawSquare(moment, x, y, isDone) {
  const hue = hueOf(moment.process);
  const filled = '120D'.includes(moment.letter);
  const title = `<title>${escaped(`${moment.name}: ${moment.operation}: ${moment.shows}`)}</title>`;
  return `<g opacity="${isDone ? 1 : 0.4}">${title}<rect x="${x + 1}" y="${y}" width="${SQUARE - 2}" height="24" rx="4" fill="${filled ? hue : 'var(--paper)'}" stroke="${hue}" stroke-width="1.5"/>`
    + textAt(x + SQUARE / 2, y + 17, moment.letter, `text-anchor="middle" font-weight="700" fill="${filled ? 'var(--paper)' : 'var(--ink)'}"`) + '</g>';
}

// Where a simulator is in the unsafe section: from the step by which it enters to that by which it leaves, or to the last moment that is shown.
function insideOf(room, simulator, shown) {
  const parts = [];
  room.moments.slice(0, shown).forEach((moment, at) => {
    if (moment.simulator !== simulator) return;
    if (moment.letter === '1') parts.push({ from: at, to: shown });
    if (moment.letter === '2' || moment.letter === '0') parts[parts.length - 1].to = at + 1;
  });
  return parts;
}

// The name of a simulator, with a cross once it has crashed.
function drawName(room, simulator, count, y) {
  const hasCrashed = room.moments.slice(0, count).some(moment => moment.crash && moment.simulator === simulator);
  const cross = hasCrashed ? ' <tspan class="crashed" fill="var(--now)" font-weight="700">\u2715</tspan>' : '';
  return `<text class="name" x="2" y="${y + 17}" fill="var(--ink)">simulator ${simulator}${cross}</text>`;
}

function drawLane(room, simulator, first, count, y) {
  const shown = isFutureShown ? room.moments.length : count;
  const last = Math.min(first + layout.columns, shown);
  const x = at => LEFT + (at - first) * SQUARE;
  let lane = drawName(room, simulator, count, y);
  for (const { from, to } of insideOf(room, simulator, shown)) {
    const [begin, end] = [Math.max(from, first), Math.min(to, last)];
    if (begin < end) lane += `<rect x="${x(begin)}" y="${y - 4}" width="${(end - begin) * SQUARE}" height="32" fill="url(#hatch)"/>`;
  }
  range(last - first).map(index => first + index).filter(at => room.moments[at].simulator === simulator).forEach(at => {
    const moment = room.moments[at];
    if (moment.crash) {
      lane += textAt(x(at) + SQUARE / 2, y + 19, '\u2715', `text-anchor="middle" font-size="20" fill="var(--now)" opacity="${at < count ? 1 : 0.4}"`);
      return;
    }
    lane += drawSquare(moment, x(at), y, at < count);
    const before = room.moments[at - 1];
    if (!before || before.simulator !== simulator || before.turn !== moment.turn || at === first) {
      lane += textAt(x(at) + 2, y + 37, `p${moment.process} r${moment.round}`, `class="turn" font-size="13" fill="${hueOf(moment.process)}"`);
    }
  });
  return lane;
}

// An event in the lane of its process, tied to the square of the step at which it takes effect. One that isn't known yet is paler; one that
// a report doesn't have yet has a dashed border.
function drawEvent(room, event, first, count, y, left) {
  const x = LEFT + (event.at - first) * SQUARE + SQUARE / 2;
  const hue = hueOf(event.process);
  const from = TOP + room.moments[event.at].simulator * LANE + 24;
  const filled = event.text.startsWith('decide');
  const title = `<title>process ${event.process}: ${escaped(event.text)}; takes effect at step ${event.at + 1}</title>`;
  return `<g opacity="${event.known < count ? 1 : 0.35}">${title}<path d="M ${x} ${from} L ${Math.max(x, left + 8)} ${y}" stroke="${hue}" stroke-dasharray="2 3"/>`
    + `<rect x="${left}" y="${y}" width="${widthOf(event)}" height="20" rx="${event.text.startsWith('snap') ? 10 : 3}" fill="${filled ? hue : 'var(--paper)'}" stroke="${hue}"${room.unreported.has(event.at) ? ' stroke-dasharray="4 2"' : ''}/>`
    + textAt(left + 5, y + 15, event.text, `font-family="monospace" font-size="13" fill="${filled ? 'var(--paper)' : 'var(--ink)'}"`) + '</g>';
}

const widthOf = event => 10 + 7.9 * event.text.length;

// The line of the current moment. Boxes come after it, so that their texts aren't crossed.
const drawNow = (x, height) => `<path class="now-line" d="M ${x} 2 V ${height - 4}" stroke="var(--now)" stroke-width="2"/>`;

// The events of one process, none over another.
function drawEvents(room, events, first, count, y) {
  let free = 0;
  return events.map(event => {
    const left = Math.max(LEFT + (event.at - first) * SQUARE + SQUARE / 2 - 8, free);
    free = left + widthOf(event) + 3;
    return drawEvent(room, event, first, count, y, left);
  }).join('');
}

function drawLanes(room, count) {
  const total = room.moments.length;
  const first = firstDrawn(total, count);
  const top = TOP + room.simulators * LANE + 6;
  const bottom = top + room.processes * EVENTS;
  const height = bottom + (room.openings.length > 0 ? EVENTS : 0) + 6;
  const width = LEFT + (Math.min(total, layout.columns) + 1) * SQUARE + 60;
  room.events ??= eventsOf(stateAt(room, total), room);
  room.unreported = new Set(eventsOf(stateAt(room, count), room).filter(event => !event.isReported).map(event => event.at));
  const events = room.events.filter(event => event.at >= first && event.at < first + layout.columns && (isFutureShown || event.known < count));
  const now = LEFT + (count - first) * SQUARE;
  return `<svg viewBox="0 0 ${Math.max(width, layout.width)} ${height}" style="--least: ${height * 0.75}px" preserveAspectRatio="xMinYMin meet" role="img" aria-label="Lanes of simulators and processes" font-family="Helvetica, Arial, sans-serif" font-size="14">`
    + '<defs><pattern id="hatch" width="7" height="7" patternUnits="userSpaceOnUse" patternTransform="rotate(45)"><rect width="7" height="7" fill="var(--inside)"/><path d="M 0 0 V 7" stroke="var(--hatch)" stroke-width="2"/></pattern></defs>'
    + range(room.simulators).map(i => drawLane(room, i, first, count, TOP + i * LANE)).join('')
    + drawNow(now, height)
    + range(room.processes).map(p => textAt(2, top + p * EVENTS + 15, 'process ' + p, `fill="${hueOf(p)}"`) + `<path d="M 98 ${top + p * EVENTS + 10} H ${width}" stroke="var(--rule)"/>`).join('')
    + range(room.processes).map(p => drawEvents(room, events.filter(event => event.process === p), first, count, top + p * EVENTS)).join('')
    + (room.openings.length > 0 ? drawOpenings(room, first, count, bottom, width) : '')
    + '</svg>';
}
