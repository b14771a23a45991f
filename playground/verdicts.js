// ---- verdicts: at once whether a transcript is a run, and whether a task is broken, with the reason that `bgview why` gives

const hasTask = script => /^task agree /m.test(script);

// The options of `why`: the task of the reader's own, if one is written.
function ownTask() {
  const task = at('own-task').value.trim();
  return task === '' ? {} : { task };
}

// The lines of `why` to show: of a transcript all verdicts, and of a script those on broken tasks, and on the reader's own.
function verdictLines(reading, text) {
  const isScript = reading.kind !== 'transcript';
  const options = ownTask();
  if (isScript && !hasTask(reading.script) && !options.task) return '';
  const answer = view.why(isScript ? view.transcript(reading.script).text : text, options);
  if (!isScript || answer.status > 1) return answerFault(answer) || answer.text;
  const isShown = line => / (?:task|decisions) broken: line \d+$| decisions are allowed$/.test(line);
  return partsBy(answer.text.split('\n'), line => !line.startsWith('    ')).filter(([line]) => isShown(line)).flat().join('\n');
}

// Lines in groups, each of which begins with a line of a kind.
function partsBy(lines, begins) {
  const parts = [];
  for (const line of lines) {
    if (begins(line)) parts.push([line]);
    else parts.at(-1)?.push(line);
  }
  return parts;
}

function showVerdict(reading, text) {
  const said = reading.status === 0 ? verdictLines(reading, text).trimEnd() : '';
  const isBad = / is not a run: | (?:task|decisions) broken: | refused | is no condition: /.test(said);
  at('verdict').hidden = said === '';
  at('verdict').className = isBad ? 'broken' : '';
  at('verdict').innerHTML = `<pre>${escaped(said)}</pre>` + (/: line \d+$/m.test(said) && reading.kind === 'transcript' ? '<button id="to-break">go to the line</button>' : '');
}

// The moment at which the first broken room breaks.
function goToBreak() {
  const room = runs[0].rooms.findIndex(one => one.broken >= 0);
  if (room >= 0) open(room, runs[0].rooms[room].broken + 1);
  const line = Number(/(?:not a run|task broken|decisions broken): line (\d+)/.exec(at('verdict').textContent)[1]);
  if (room < 0) goToLine(line);
}
