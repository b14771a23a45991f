// ---- the playground: one text, from which all else follows

let moduleCode = null; // the bytes of the WebAssembly module,
let view = null; // and its calls
let lessons = [];
let exercises = [];

// The text, the run before the last branch (a script) or null, and the exercise or null. Each change makes another.
let paper = { text: '', before: null, exercise: null };
const past = [];
const future = [];
let typedAt = 0; // when the last change was typed, for one undo of what is typed in a row

// What the text is read as: its kind, whether lint finds no fault, the status if there is no answer to it (else 0), the answer, and of a script or rooms the script that is played, with what its commands did.
let reading = { kind: 'rooms', isWell: true, status: 0, answer: '', script: '', effects: [] };
let tab = 'steps';
const given = { outcomes: {}, sample: {}, picture: {} }; // what was entered in the fields of each

const TYPING_PAUSE = 1000;
const isTranscript = () => reading.kind === 'transcript';
const isAtEnd = () => count >= (runs[0]?.rooms[current]?.moments.length ?? 0);

const tracedScript = script => view.trace(script, { json: true });

// Reads the text; whether there is something to step through.
function read() {
  const lint = view.lint(paper.text);
  const kind = kindOf(lint.text);
  const script = kind === 'rooms' ? openingScript(paper.text) : kind === 'script' ? paper.text : '';
  const answer = lint.status > 1 ? lint : kind === 'transcript' ? view.why(paper.text) : tracedScript(script);
  const status = answer.status > 1 ? answer.status : 0;
  reading = { kind, isWell: lint.status === 0, status, answer: answer.text, script, effects: kind === 'transcript' || status > 0 ? [] : effectsOf(answer.text) };
  showLint(paper.text, lint, view.warnings(paper.text).text);
  return status === 0;
}

// The files that are shown: the run, and the one before it.
function runsOf() {
  const run = isTranscript() ? readJudged(paper.text, reading.answer) : readScript(reading.script, reading.answer);
  if (reading.kind === 'rooms') run.refused = []; // lint has said it
  return paper.before === null || isTranscript() ? [run] : [run, { ...readScript(paper.before, tracedScript(paper.before).text), refused: [] }];
}

// As many moments are drawn as there is space for, with letters of the size of the others.
function fittingLayout() {
  const size = parseFloat(getComputedStyle(document.body).fontSize) / 15;
  const isStacked = getComputedStyle(at('runs')).flexDirection === 'column';
  const width = Math.max(PHONE.width, Math.floor(at('stage').clientWidth / size / (isStacked ? 1 : runs.length)) - (runs.length > 1 ? 10 : 0));
  return { width, columns: Math.max(PHONE.columns, Math.floor((width - LEFT - 60) / SQUARE) - 1) };
}

const hasRooms = () => runs.length > 0 && runs[0].rooms.length > 0;

function showRun(room, to) {
  pause();
  runs = read() ? runsOf() : [];
  at('controls').hidden = !hasRooms();
  at('one-run').hidden = runs.length < 2;
  if (!hasRooms()) {
    at('rooms').hidden = at('legend').hidden = true;
    showMoves();
    at('runs').innerHTML = `<p class="about">${reading.status === 0 ? 'The text opens no room.' : 'There is nothing to step through until the faults of the text are mended.'}</p>`;
    if (runs.length > 0) showRefused();
    else at('refused').hidden = true;
    return;
  }
  showRefused();
  const own = runs[0].rooms[Math.min(room, runs[0].rooms.length - 1)];
  open(room, Math.min(to, own.moments.length));
}

function showTab() {
  const tabs = { steps: true, outcomes: true, sample: true, picture: !isTranscript(), trace: !isTranscript(), replies: true };
  if (!Object.hasOwn(tabs, tab) || !tabs[tab]) tab = 'steps';
  document.querySelectorAll('#tabs button').forEach(button => {
    button.setAttribute('aria-selected', button.dataset.tab === tab);
    button.tabIndex = button.dataset.tab === tab ? 0 : -1;
    button.hidden = !tabs[button.dataset.tab];
  });
  at('steps').hidden = tab !== 'steps';
  at('answer').hidden = tab === 'steps';
  stopSearch();
  if (tab !== 'steps') showAnswer();
}

const showText = (text, buttons) => {
  at('fields').innerHTML = buttons;
  at('shown').innerHTML = `<pre>${escaped(text)}</pre>`;
};

// The replies to a script. `bgsim play` refuses reductions; of a script that has one they are the lines of its trace that are no notes.
function repliesTo(script) {
  if (!hasReduction(script)) return view.play(script);
  const answer = view.trace(script);
  return { ...answer, text: answer.text.replace(/^ .*\n/gm, '') };
}

function showAnswer() {
  if (tab === 'outcomes' || tab === 'sample') {
    showFields(tab, given[tab]);
    search(tab, roomsIn(paper.text));
  } else if (tab === 'picture') {
    showPictureFields(given.picture);
    showPicture(reading.script);
  } else if (tab === 'trace') {
    const answer = view.transcript(reading.script);
    showText(answerFault(answer) || answer.text, `<button type="button" data-copy="yes">copy</button>${answer.status > 1 ? '' : '<button type="button" data-edit="yes">open it as a transcript</button>'}`);
  } else {
    const answer = isTranscript() ? view.why(paper.text) : repliesTo(reading.script);
    showText(answerFault(answer) || answer.text, '<button type="button" data-copy="yes">copy</button>');
  }
}

// Shows all that follows from the text.
function showPaper(room = current, to = count) {
  showRun(room, to);
  showExercise(paper.exercise, paper.text);
  showVerdict(reading, paper.text);
  showTab();
  at('undo').disabled = past.length === 0;
  at('redo').disabled = future.length === 0;
  noteAddress();
}

// Makes a change that can be undone, and shows it at a moment of the room that is shown.
function change(next, to = count) {
  past.push(paper);
  future.length = 0;
  typedAt = 0;
  at('note').textContent = '';
  paper = { ...paper, ...next };
  setText(paper.text);
  showPaper(current, to);
}

function goBack(from, onto) {
  if (from.length === 0) return;
  onto.push(paper);
  paper = from.pop();
  typedAt = 0;
  setText(paper.text);
  showQuestion(null);
  showPaper(current, Infinity);
}

const undo = () => goBack(past, future);
const redo = () => goBack(future, past);

function onTyped() {
  const isInRow = Date.now() - typedAt < TYPING_PAUSE;
  if (!isInRow) past.push(paper);
  typedAt = Date.now();
  future.length = 0;
  const wasAtEnd = isAtEnd();
  paper = { ...paper, text: at('text').value, before: null };
  showPaper(current, wasAtEnd ? Infinity : count);
}

function openRun(text) {
  tab = 'steps';
  current = 0;
  showQuestion(null);
  change({ text, before: null, exercise: null }, text.includes('\nevents\n') ? 0 : Infinity);
}
