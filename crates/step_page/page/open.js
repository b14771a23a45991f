// ---- the outcomes that simulators can still reach, after each command of a script

// What `bgview outcomes --open --json` answers: an object for each reply, as a trace has one.
const readOpenings = answer => answer.split('\n').filter(Boolean).map(line => JSON.parse(line));

// How each process ends, in words.
const endsText = ends => ends.map(({ state, value }) => (state === 'decided' ? String(value) : state)).join(' ');

// Adds what is open in a room once a command has ended: `outcomes` is null if the search met its limit, and `isAll` says that no other outcome is open.
function addOpening(room, { open, complete }) {
  room.openings.push({ at: room.moments.length, outcomes: open && open.map(endsText), isAll: complete });
}

const openCount = ({ outcomes, isAll }) => (outcomes ? outcomes.length + (isAll ? '' : '+') : '?');

// Which of some outcomes are open no more.
const closedAmong = (outcomes, opening) => (opening.isAll ? outcomes.filter(outcome => !opening.outcomes.includes(outcome)) : []);

function openHint(room, index) {
  const opening = room.openings[index];
  const closed = index > 0 ? closedAmong(room.openings[index - 1].outcomes ?? [], opening) : [];
  return `after step ${opening.at}: ` + (opening.outcomes ? `${many(opening.outcomes.length, 'outcome')} can still be reached${opening.isAll ? '' : ', and maybe more'}` : 'the search met its limit') + closed.map(outcome => `; not any more: ${outcome}`).join('');
}

// The row of how many outcomes are open: a number at each moment at which it changes, and at the first one that is drawn.
function drawOpenings(room, first, count, y, width) {
  const last = first + layout.columns;
  const before = room.openings.findLastIndex(({ at }) => at <= first);
  const isShown = ({ at }, index) => index === before || (at > first && at <= last && openCount(room.openings[index]) !== openCount(room.openings[index - 1]));
  const now = room.openings.findLastIndex(({ at }) => at <= count);
  const numberAt = (opening, index) => {
    const x = LEFT + Math.max(0, opening.at - first) * SQUARE;
    const hasPassed = opening.at <= count;
    return `<text class="opening" x="${x}" y="${y + 15}" text-anchor="middle" font-weight="${index <= now ? 700 : 400}" fill="${index > 0 && opening.at > first ? 'var(--now)' : 'var(--ink)'}" opacity="${hasPassed ? 1 : 0.4}"><title>${escaped(openHint(room, index))}</title>${openCount(opening)}</text>`;
  };
  const numbers = room.openings.map((opening, index) => (isShown(opening, index) && (isFutureShown || opening.at <= count) ? numberAt(opening, index) : ''));
  return `<path d="M 98 ${y + 20} H ${width}" stroke="var(--rule)"/>` + textAt(2, y + 15, 'outcomes', 'fill="var(--ink)"') + numbers.join('');
}

const OPEN_HINTS = {
  open: 'some schedule of the simulators from here on leads to it',
  closed: 'no schedule of the simulators leads to it any more',
  not: 'it was not found again, but the search missed nodes, or met its limit',
};

// What is known of an outcome after the last of these commands: from which step on it can't be reached any more.
function standingOfOutcome(openings, outcome) {
  const closing = openings.find(opening => closedAmong([outcome], opening).length > 0);
  if (closing) return `closed by step ${closing.at}`;
  return openings.at(-1).outcomes?.includes(outcome) ? 'open' : 'not known';
}

// The outcomes that could be reached when the room was opened, and which of them still can.
function outcomes(room, count) {
  const openings = room.openings.filter(({ at }) => at <= count);
  if (openings.length === 0) return '';
  const known = [...new Set(openings.flatMap(opening => opening.outcomes ?? []))];
  const head = [corner, ...range(room.processes).map(processHead), headCell('result', 'whether some schedule of the simulators still leads to it')];
  const rows = known.map((outcome, index) => {
    const standing = standingOfOutcome(openings, outcome);
    const isNow = standing === `closed by step ${count}` && openings.at(-1).at === count;
    return [headCell(index + 1, 'an outcome: what becomes of each process'), ...outcome.split(' ').map((end, p) => cell(end, `process ${p} ${/^\d/.test(end) ? 'decides ' + end : 'is ' + end}`)), cell(standing, OPEN_HINTS[/^\w+/.exec(standing)[0]], 'text', isNow && 'now')];
  });
  const { at, isAll } = openings.at(-1);
  return section('outcomes', `Outcomes that could still be reached after step ${at}${isAll ? '' : ', as far as known'}`, table([head, ...rows]));
}
