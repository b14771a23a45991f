// ---- keys and buttons, and the beginning

let awaitsCrash = false; // the key x was pressed: the next digit says which simulator crashes

function awaitCrash(isAwaited) {
  awaitsCrash = isAwaited;
  at('moves').classList.toggle('crashing', isAwaited);
  at('note').textContent = isAwaited ? 'Which simulator crashes?' : '';
}

// Presses the button of a move, if the simulator can make it.
function pressMove(kind, simulator) {
  at('moves').querySelector(`[data-move="${kind}"]${simulator === undefined ? '' : `[data-simulator="${simulator}"]`}`)?.click();
}

function showOneRun() {
  if (paper.before !== null) change({ before: null });
}

const OWN_KEYS = {
  u: event => (event.shiftKey ? redo() : undo()),
  s: () => pressMove('settle'),
  o: showOneRun,
  e: () => at('text').focus(),
  x: () => awaitCrash(true),
  escape: () => awaitCrash(false),
};

// Ctrl and z, or y, in the editor and outside of it.
function onUndoKey(event) {
  const key = event.key.toLowerCase();
  if (!(event.ctrlKey || event.metaKey) || event.altKey || !['z', 'y'].includes(key)) return false;
  event.preventDefault();
  if (key === 'y' || event.shiftKey) redo();
  else undo();
  return true;
}

function onPageKey(event) {
  if (onUndoKey(event) || event.target.matches('input:not([type=range], [type=checkbox]), select, summary')) return;
  if (event.ctrlKey || event.metaKey || event.altKey || (event.key === ' ' && event.target.matches('[type=checkbox]'))) return;
  const digit = /^(?:Digit|Numpad)(\d)$/.exec(event.code);
  const own = OWN_KEYS[event.key.toLowerCase()];
  if (tab !== 'steps' && (digit || event.key === ' ')) return;
  if (digit) {
    pressMove(awaitsCrash ? 'crash' : event.shiftKey ? 'turn' : 'step', digit[1]);
    awaitCrash(false);
  } else if (own) {
    event.preventDefault();
    own(event);
  } else if (hasRooms() && tab === 'steps') {
    onKey(event);
  }
}

function onEditorKey(event) {
  event.stopPropagation();
  if (!onUndoKey(event) && event.key === 'Escape') at('text').blur();
}

// Left and right go through tabs that have the focus.
function onTabKey(event) {
  const step = { ArrowLeft: -1, ArrowRight: 1 }[event.key];
  if (!step) return;
  event.stopPropagation();
  const buttons = [...document.querySelectorAll('#tabs button:not([hidden])')];
  const next = buttons[(buttons.indexOf(event.target) + step + buttons.length) % buttons.length];
  next.click();
  next.focus();
}

async function copy(text, words) {
  try {
    await navigator.clipboard.writeText(text);
    at('note').textContent = words;
  } catch {
    at('note').textContent = 'The browser did not let this page copy.';
  }
}

async function copyLink() {
  const isShort = await writeAddress();
  if (isShort) copy(location.href, 'The link is copied.');
  else at('note').textContent = 'The text is too long for a link.';
}

function bindStage() {
  at('moves').onclick = ({ target: { dataset } }) => dataset.move && move(dataset.move, Number(dataset.simulator));
  at('one-run').onclick = showOneRun;
  at('tabs').onclick = ({ target: { dataset } }) => {
    if (!dataset.tab) return;
    tab = dataset.tab;
    showTab();
    noteAddress();
  };
  at('tabs').onkeydown = onTabKey;
  at('exercise').onclick = ({ target: { dataset } }) => {
    if (dataset.again) change({ text: paper.exercise.text, before: null }, Infinity);
    if (dataset.run) openRun(dataset.run);
  };
  at('own-task').oninput = () => showVerdict(reading, paper.text);
  at('verdict').onclick = ({ target }) => target.id === 'to-break' && goToBreak();
}

function bindAnswer() {
  at('fields').onsubmit = event => {
    event.preventDefault();
    given[tab] = tab === 'picture' ? { percent: Number(at('fields').percent.value), byTurns: at('fields').byTurns.checked } : givenFields(tab);
    if (tab === 'picture') showPicture(reading.script);
    else search(tab, roomsIn(paper.text));
  };
  at('fields').onclick = ({ target: { dataset } }) => {
    if (dataset.save) savePicture(dataset.save);
    if (dataset.copy) copy(at('shown').textContent, 'It is copied.');
    if (dataset.edit) openRun(at('shown').textContent);
  };
  at('shown').onclick = ({ target: { dataset } }) => dataset.run && openRun(dataset.run);
  at('stop').onclick = () => {
    stopSearch();
    at('shown').insertAdjacentHTML('afterbegin', '<p class="fault">The search was stopped.</p>');
  };
}

function bindEditor() {
  at('text').oninput = onTyped;
  at('text').onscroll = scrollMarks;
  at('text').onkeydown = onEditorKey;
  at('text').onbeforeinput = event => {
    if (!event.inputType.startsWith('history')) return;
    event.preventDefault();
    if (event.inputType === 'historyUndo') undo();
    else redo();
  };
  at('words').onclick = ({ target: { dataset } }) => dataset.line && goToLine(Number(dataset.line));
  at('lessons').onchange = () => takeLesson(at('lessons').value);
  at('undo').onclick = undo;
  at('redo').onclick = redo;
  at('copy-text').onclick = () => copy(paper.text, 'The text is copied.');
  at('copy-link').onclick = copyLink;
}

async function begin() {
  try {
    moduleCode = await through(new DecompressionStream('gzip'), bytesOf(at('module').textContent));
    view = await load(moduleCode);
  } catch (error) {
    at('words').textContent = `This browser can't run the code of this page: ${error.message}. Chrome, Firefox and Safari of 2023 or later can.`;
    return;
  }
  ({ lessons, exercises } = JSON.parse(at('lessons-data').textContent));
  layoutHere = fittingLayout;
  whenShown = () => {
    showMoves();
    noteAddress();
  };
  listLessons();
  bindControls();
  bindStage();
  bindAnswer();
  bindEditor();
  onkeydown = onPageKey;
  onhashchange = fromAddress;
  onresize = () => {
    if (hasRooms()) show();
  };
  await fromAddress();
  past.length = 0;
  at('undo').disabled = true;
  document.body.dataset.ready = 'yes';
}

begin();
