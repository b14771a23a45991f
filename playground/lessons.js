// ---- lessons and exercises in a list, and the address of the page, which says what is shown

const optionOf = (value, words) => `<option value="${escaped(value)}">${escaped(words)}</option>`;

function listLessons() {
  const modes = [...new Set(lessons.map(lesson => lesson.mode))];
  const groups = modes.map(mode => `<optgroup label="${mode}">${lessons.filter(lesson => lesson.mode === mode).map(lesson => optionOf(`${mode}/${lesson.name}`, lesson.name)).join('')}</optgroup>`);
  at('lessons').innerHTML = optionOf('', 'your own text') + `<optgroup label="exercises">${exercises.map(({ name }) => optionOf(`exercise/${name}`, name)).join('')}</optgroup>` + groups.join('');
}

const lessonNamed = name => lessons.find(lesson => `${lesson.mode}/${lesson.name}` === name);

function showQuestion(lesson) {
  const [question, answer] = [at('question').querySelector('summary'), at('question').querySelector('p')];
  Object.assign(at('question'), { hidden: !lesson, open: false });
  question.innerHTML = lesson?.question ?? '';
  answer.innerHTML = lesson?.answer ?? '';
  at('lessons').value = lesson ? `${lesson.mode}/${lesson.name}` : paper.exercise ? `exercise/${paper.exercise.name}` : '';
}

// The tab of a lesson: where the mode that it is about shows its answer.
const TAB_OF = { outcomes: 'outcomes', sample: 'sample', transcript: 'trace' };

function takeLesson(name) {
  const lesson = lessonNamed(name);
  const exercise = exercises.find(one => `exercise/${one.name}` === name);
  current = 0;
  tab = TAB_OF[lesson?.mode] ?? 'steps';
  Object.assign(given, { outcomes: {}, sample: {}, picture: {} }, lesson?.given ? { [lesson.mode]: lesson.given } : {});
  change({ text: (lesson ?? exercise)?.text ?? '', before: null, exercise: exercise ?? null }, Infinity);
  showQuestion(lesson);
}

let addressTimer = null;

// What an address says: a lesson, an exercise, or both a text and its exercise; the tab; the room and the moment; whether the future is hidden; and the run before a branch.
async function addressNow() {
  const words = [];
  const lesson = lessonNamed(at('lessons').value);
  if (paper.exercise) words.push('exercise=' + paper.exercise.name);
  if (lesson?.text === paper.text) words.push(`lesson=${lesson.mode}/${lesson.name}`);
  else if (paper.text !== paper.exercise?.text) words.push('text=' + await packed(paper.text));
  if (tab !== 'steps') words.push('tab=' + tab);
  if (current > 0 || !isAtEnd()) words.push(`at=${current},${count}`);
  if (!isFutureShown) words.push('future=hidden');
  const before = paper.before === null ? null : 'before=' + await packed(paper.before);
  const whole = [...words, before].join('&');
  return before === null || whole.length > LONGEST_LINK ? words.join('&') : whole;
}

// Puts into the address what is shown, unless that is too long. The run before a branch is left out if it is too long with it.
async function writeAddress() {
  const address = await addressNow();
  const isShort = address.length <= LONGEST_LINK;
  history.replaceState(null, '', isShort ? '#' + address : location.pathname);
  return isShort;
}

function noteAddress() {
  clearTimeout(addressTimer);
  addressTimer = setTimeout(writeAddress, 400);
}

// The text and the run before, as an address has them.
async function textsIn(words) {
  const texts = {};
  for (const name of ['text', 'before']) if (words.has(name)) texts[name] = await unpacked(words.get(name));
  if (texts.before !== undefined && tracedScript(texts.before).status > 1) throw new Error('the run before is no script');
  return texts;
}

async function fromAddress() {
  const words = new URLSearchParams(location.hash.slice(1));
  const name = words.get('lesson') ?? (words.get('exercise') ? `exercise/${words.get('exercise')}` : words.get('text') === null ? 'trace/inside' : '');
  at('lessons').value = name;
  takeLesson(at('lessons').value);
  if (words.has('text') || words.has('before')) {
    try {
      change(await textsIn(words), Infinity);
    } catch {
      at('note').textContent = 'The link is damaged: it has no whole text.';
    }
  }
  if (words.get('tab')) tab = words.get('tab');
  isFutureShown = words.get('future') !== 'hidden';
  const [room, to] = (words.get('at') ?? '').split(',').map(Number);
  showPaper(room || 0, to >= 0 && words.get('at') ? to : Infinity);
}
