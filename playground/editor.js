// ---- the editor: a text with the line numbers, the places and the words of what `bgview lint` finds and warns of

const MARKED_LINES = 3000; // a longer text has its faults in words alone

// What kind of text it is, by the first line of what `lint` answers: a script, rooms or a transcript.
const kindOf = said => /^read as (?:a )?(\w+)/.exec(said)?.[1] ?? 'rooms';

// The faults or the warnings that `lint` names: each with its line, and if the line is shown as it is, with the place in it.
function namedIn(said, text) {
  const lines = text.split('\n');
  const words = said.split('\n');
  return words.flatMap((word, index) => {
    const found = /^ {4}line (\d+): /.exec(word);
    if (!found) return [];
    const line = Number(found[1]);
    const isWhole = words[index + 1] === '    ' + lines[line - 1] && /^ +\^$/.test(words[index + 2] ?? '');
    return [{ line, place: isWhole ? words[index + 2].length - 5 : null, words: word.slice(found[0].length) }];
  });
}

const kindOfMark = named => (named.isWarning ? ' class="warning"' : '');

// A line of the text as it is drawn under the editor: spaces at its end and tabs are visible, and the place of what is named is marked.
function markedLine(line, named) {
  const visible = text => escaped(text.replace(/\t/g, '\u2192')).replace(/ +$/, spaces => `<i>${'\u00b7'.repeat(spaces.length)}</i>`);
  if (!named) return visible(line);
  if (named.place === null) return `<mark${kindOfMark(named)}>${visible(line)} </mark>`;
  const at = named.place;
  return `<mark${kindOfMark(named)}>${escaped(line.slice(0, at))}<b>${escaped(line.slice(at, at + 1) || ' ')}</b>${visible(line.slice(at + 1))}</mark>`;
}

// Marks each line by the first of those that name it.
function showMarks(text, named) {
  const lines = text.split('\n');
  const first = new Map(named.map(one => [one.line, one]).reverse());
  const isDrawn = lines.length <= MARKED_LINES;
  at('numbers').innerHTML = lines.map((_, index) => (first.has(index + 1) ? `<b${kindOfMark(first.get(index + 1))}>${index + 1}</b>` : index + 1)).join('\n') + '\n';
  at('marks').innerHTML = isDrawn ? lines.map((line, index) => markedLine(line, first.get(index + 1))).join('\n') + '\n' : '';
  scrollMarks();
}

function scrollMarks() {
  const { scrollTop, scrollLeft } = at('text');
  at('numbers').scrollTop = scrollTop;
  Object.assign(at('marks'), { scrollTop, scrollLeft });
}

// The words of `lint` and what it warns of, in which each line number goes to its line.
function showWords(text, answer, warned) {
  const withLines = said => escaped(said).replace(/^( {4})(line (\d+))(?=: )/gm, '$1<button data-line="$3">$2</button>');
  const isEmpty = text.trim() === '';
  const said = isEmpty ? 'Write a script, rooms or a transcript, or take a lesson.' : answerFault(answer) || answer.text.trimEnd();
  at('words').className = isEmpty || answer.status === 0 ? 'well' : 'faulty';
  at('words').innerHTML = `<pre>${withLines(said)}</pre>` + (isEmpty || warned === '' ? '' : `<pre class="warning">${withLines(warned.trimEnd())}</pre>`);
}

function showLint(text, answer, warned) {
  const faults = answer.status === 1 ? namedIn(answer.text, text) : [];
  const warnings = namedIn(warned, text).map(one => ({ ...one, isWarning: true }));
  showMarks(text, [...faults, ...warnings]);
  showWords(text, answer, warned);
}

function goToLine(number) {
  const lines = at('text').value.split('\n');
  const begin = lines.slice(0, number - 1).reduce((sum, line) => sum + line.length + 1, 0);
  at('text').focus();
  at('text').setSelectionRange(begin, begin + lines[number - 1].length);
  at('text').scrollTop = (at('text').scrollHeight / lines.length) * Math.max(0, number - 4);
}

// Shows a text that was not typed, with its last lines in sight.
function setText(text) {
  if (at('text').value === text) return;
  at('text').value = text;
  at('text').scrollTop = at('text').scrollHeight;
}
