// ---- exercises: the question, the goal, and what is reached so far

const claimOf = (words, isReached) => `<li class="${isReached ? 'reached' : ''}">${isReached ? '\u2713' : '\u2717'} ${escaped(words)}</li>`;

function showExerciseBox(exercise, isReached, body) {
  at('exercise').hidden = false;
  at('exercise').className = isReached ? 'reached' : '';
  at('exercise').innerHTML = `<p><b>${isReached ? '\u2713 ' : ''}Exercise ${escaped(exercise.name)}:</b> ${exercise.question}</p>${body}`;
}

const notAsGiven = '<p>The text has to begin with the lines of the exercise. <button data-again="yes">begin again</button></p>';

// The script that is graded: if it doesn't end with a report, all simulators that have not crashed first go as far as they can.
function gradedScript(script, name) {
  return /^report /.test(lastLine(withEnd(script))) ? script : withLine(withLine(script, `settle ${name}`), `report ${name}`);
}

// The goal of a script, claim by claim, as `bgview grade` judges it.
function showGoal(exercise, text) {
  const script = gradedScript(text, readSpec(exercise.room.split('\n')).name);
  const { status, text: said } = view.grade(script, { goal: exercise.goal, commands: exercise.commands });
  const claims = said.trimEnd().split('\n').slice(0, -1).map(line => claimOf(line, line.endsWith(': yes')));
  const settled = script === text ? '' : ' <small>judged after <code>settle</code> and <code>report</code>, which the answer needs at its end</small>';
  const goal = `<p>Goal: <code>${escaped(exercise.goal)}</code>${settled}</p><ul>${claims.join('')}</ul>`;
  showExerciseBox(exercise, status === 0, status > 1 ? '<p>The script has a fault.</p>' : goal);
}

// The claims on a protocol, which `bgview outcomes` judges with several lists of inputs, in a worker.
let judging = null;

function showProtocolGoal(exercise, rooms) {
  const claims = [];
  const show = body => showExerciseBox(exercise, false, `<ul>${claims.join('')}</ul>${body}`);
  show('<p>searching all runs ..</p>');
  const calls = exercise.says.map(({ inputs }) => ({ mode: 'outcomes', text: rooms.replace(/^inputs .*$/m, `inputs ${inputs}`), given: { brief: true } }));
  judging = callInWorker(calls, (answer, index) => {
    const { inputs, claims: wanted } = exercise.says[index];
    const lines = answer.text.split('\n');
    const judged = wanted.map(claim => ({ claim, holds: lines.includes(claim) }));
    claims.push(...judged.map(({ claim, holds }) => claimOf(`inputs ${inputs}: ${claim}`, holds)));
    if (judged.every(({ holds }) => holds)) {
      if (index + 1 === calls.length) showExerciseBox(exercise, true, `<ul>${claims.join('')}</ul>`);
      else show('<p>searching all runs ..</p>');
      return;
    }
    judging.stop();
    const broken = partsOf(answer.text).find(part => part.run !== '');
    show(broken ? `<p>${escaped(broken.lines.at(-1))} ${openButton(broken.run)}</p>` : `<p>${escaped(answerFault(answer) || lines.find(line => /decided at most|not searched/.test(line)) || '')}</p>`);
  });
}

function showExercise(exercise, text) {
  judging?.stop();
  at('exercise').hidden = !exercise;
  if (!exercise) return;
  const answer = exercise.says && reading.kind === 'script' ? roomsIn(text) : text; // a script opens a protocol's room to step through it
  if (!withEnd(answer).startsWith(exercise.room)) showExerciseBox(exercise, false, notAsGiven);
  else if (exercise.goal) showGoal(exercise, text);
  else if (reading.isWell) showProtocolGoal(exercise, answer);
  else showExerciseBox(exercise, false, '<p>Write the protocol, and <code>end</code> after it.</p>');
}
