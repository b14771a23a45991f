// ---- the page: steps through the rooms of one file, or of two next to each other

let runs = []; // of each file what readScript or readJudged reads
let whenShown = () => {}; // is called after each change of what is shown
let current = 0; // which room of each file is shown
let count = 0; // how many of its moments have passed
let timer = null;

const shownRooms = () => runs.map(run => run.rooms[current]).filter(Boolean);
const roomCount = () => Math.max(...runs.map(run => run.rooms.length));
const lengthOf = rooms => Math.max(0, ...rooms.map(room => room.moments.length));

// How many moments pass in two rooms until they differ, or null if they never do.
function firstDifference([one, other]) {
  if (!other) return null;
  const sentenceAt = (room, number) => (number <= room.moments.length ? room.show.sentence({ ...room, verdicts: [] }, number) : '');
  const found = range(lengthOf([one, other])).find(index => sentenceAt(one, index + 1) !== sentenceAt(other, index + 1));
  return found === undefined ? null : found + 1;
}

function differenceText(rooms) {
  const number = firstDifference(rooms);
  if (rooms.length < 2) return '';
  if (number === null) return 'The two runs are the same.';
  const ended = rooms.findIndex(room => room.moments.length < number);
  return `The two runs first differ at step ${number}` + (ended < 0 ? '.' : `: the ${ended === 0 ? 'first' : 'second'} has ended by then.`);
}

function panelOf(room) {
  const inputs = `, inputs ${room.inputs.join(' ')}`;
  const about = `${many(room.processes, 'process')}${room.isReduction ? '' : inputs}; ${many(room.simulators, 'simulator')}${room.isReduction ? inputs : ''}; ${many(room.rounds, 'round')}`;
  return `<section class="run"><header><h1>${escaped(room.name)}</h1><p class="about">${escaped(about)}</p><code class="protocol">${escaped(room.protocol.join(' '))}</code></header>`
    + '<div class="sentence" role="status" aria-live="polite"></div><div class="lanes"></div><div class="tables"></div></section>';
}

function showRooms() {
  const rooms = shownRooms();
  document.title = rooms[0].name + ', step by step';
  at('runs').innerHTML = rooms.map(panelOf).join('');
  at('slider').max = lengthOf(rooms);
  at('rooms').hidden = roomCount() < 2;
  at('rooms').innerHTML = range(roomCount()).map(index => {
    const names = new Set(runs.map(run => run.rooms[index]?.name).filter(Boolean));
    return `<button role="tab" aria-selected="${index === current}" data-room="${index}">${escaped([...names].join(' / '))}</button>`;
  }).join('');
  at('difference').textContent = differenceText(rooms);
  at('difference').hidden = rooms.length < 2;
  at('legend').hidden = !rooms.some(room => room.show === SIMULATION);
}

function showPanel(room, panel) {
  const reached = Math.min(count, room.moments.length);
  panel.querySelector('.sentence').innerHTML = room.show.sentence(room, reached);
  panel.querySelector('.lanes').innerHTML = room.show.lanes(room, reached);
  panel.querySelector('.tables').innerHTML = room.show.tables(room, reached);
}

// How much of a run is drawn: as much as can be read in this window.
let layoutHere = () => (innerWidth < 700 ? PHONE : runs.length > 1 ? NARROW : WIDE);

function show() {
  layout = layoutHere();
  const rooms = shownRooms();
  at('slider').value = count;
  at('position').textContent = `step ${count} of ${lengthOf(rooms)}`;
  rooms.forEach((room, index) => showPanel(room, at('runs').children[index]));
  at('future').textContent = isFutureShown ? 'hide the future' : 'show the future';
  at('future').setAttribute('aria-pressed', !isFutureShown);
  whenShown();
}

function hideOrShowFuture() {
  isFutureShown = !isFutureShown;
  show();
}

function go(to) {
  count = Math.max(0, Math.min(lengthOf(shownRooms()), to));
  show();
}

// To the end of this turn, or of the one before, in the longer run.
function goTurn(direction) {
  const longest = shownRooms().reduce((one, other) => (other.moments.length > one.moments.length ? other : one));
  const { moments, show: { isSameTurn } } = longest;
  let to = count + direction;
  while (to > 0 && to < moments.length && isSameTurn(moments[to - 1], moments[to])) to += direction;
  go(to);
}

function goToDifference() {
  const number = firstDifference(shownRooms());
  if (number !== null) go(number);
}

function open(room, to) {
  current = Math.max(0, Math.min(roomCount() - 1, room));
  showRooms();
  go(to);
}

function pause() {
  clearInterval(timer);
  timer = null;
  at('play').textContent = 'play';
}

function play() {
  const end = lengthOf(shownRooms());
  if (timer) return pause();
  if (count === end) go(0);
  at('play').textContent = 'pause';
  timer = setInterval(() => (count < end ? go(count + 1) : pause()), Number(at('speed').value));
}

const KEYS = {
  ArrowRight: event => (event.shiftKey ? goTurn(1) : go(count + 1)),
  ArrowLeft: event => (event.shiftKey ? goTurn(-1) : go(count - 1)),
  Home: () => go(0),
  End: () => go(Infinity),
  d: goToDifference,
  h: hideOrShowFuture,
  ' ': play,
};

function onKey(event) {
  const isOwn = event.target.matches('button, select') && event.key === ' ';
  if (!KEYS[event.key] || isOwn || event.target.matches('select') || event.ctrlKey || event.metaKey || event.altKey) return;
  event.preventDefault();
  KEYS[event.key](event);
}

function showRefused() {
  const refused = runs.flatMap(run => run.refused);
  at('refused').hidden = refused.length === 0;
  at('refused').textContent = 'Refused: ' + refused.join(' | ');
}

function bindControls() {
  at('first').onclick = () => go(0);
  at('turn-back').onclick = () => goTurn(-1);
  at('back').onclick = () => go(count - 1);
  at('play').onclick = play;
  at('on').onclick = () => go(count + 1);
  at('turn-on').onclick = () => goTurn(1);
  at('last').onclick = () => go(Infinity);
  at('difference').onclick = goToDifference;
  at('future').onclick = hideOrShowFuture;
  at('slider').oninput = event => go(Number(event.target.value));
  at('rooms').onclick = event => event.target.dataset.room && open(Number(event.target.dataset.room), 0);
}
