// ---- searches: all outcomes, and samples, as cards that open as runs; in a worker, by growing limits, so that something is shown early

const FIELDS = {
  outcomes: [
    { name: 'crashes', words: 'processes that stop, or simulators that crash, at most', least: 0, most: 16, usual: '', empty: 'all but one' },
    { name: 'nodes', words: 'nodes, at most', least: 1, most: 100000000, usual: 1000000, growsFrom: 20000 },
    { name: 'task', words: 'the task alone', isSwitch: true },
    { name: 'values', words: 'the task with all inputs of', isText: true, empty: '0,1' },
    { name: 'keeps', words: 'a task of your own', isText: true, empty: 'equal(mine) == count; given >= 2' },
    { name: 'rooms', words: 'all schedules of the simulators', isSwitch: true },
  ],
  sample: [
    { name: 'schedules', words: 'schedules', least: 1, most: 1000000, usual: 1000, growsFrom: 1000 },
    { name: 'crashes', words: 'crashes, at most', least: 0, most: 8, usual: 1 },
    { name: 'seed', words: 'seed', least: 0, most: 4294967295, usual: 1 },
    { name: 'group', words: 'whichever simulators hold processes', isSwitch: true },
  ],
};
const GROWTH = 8;
const CARDS = 300; // are shown at once

// Asks the module in a worker, and calls `use` with each answer and its number. `stop` ends it.
function callInWorker(calls, use) {
  const address = URL.createObjectURL(new Blob([at('worker-code').textContent], { type: 'text/javascript' }));
  const worker = new Worker(address);
  let answered = 0;
  const stop = () => {
    worker.terminate();
    URL.revokeObjectURL(address);
  };
  worker.onmessage = ({ data }) => {
    answered++;
    if (answered === calls.length) stop();
    use(data, answered - 1);
  };
  worker.onerror = event => {
    stop();
    use({ status: NO_MEMORY, text: '', words: event.message }, answered);
  };
  worker.postMessage({ code: moduleCode, calls });
  return { stop };
}

// A line that says of which room, or of a reduction from which inputs, the lines after it are.
const beginsRoom = line => /^\S+ (?:outcomes|sample|from the inputs) /.test(line);
const saysInputs = line => / from the inputs [\d ]+:$/.test(line);

// What a search answers, in parts: lines, and a run that shows what they say; or only lines.
function partsOf(answer) {
  const isOfRun = line => /^(?:events|(?:step|crash|settle|report) \S.*|\S+ \d+ (?:write|snap|decide) .*)$/.test(line);
  const lines = answer.split('\n');
  const parts = [];
  let said = [];
  const finish = run => {
    if (said.length > 0) parts.push({ lines: said, run });
    said = [];
  };
  for (let begin = 0; begin < lines.length; begin++) {
    if (/^(?:open|bgsim \d+)$/.test(lines[begin])) {
      let end = lines.indexOf('end', begin) + 1;
      while (end < lines.length && isOfRun(lines[end])) end++;
      finish(lines.slice(begin, end).join('\n') + '\n');
      begin = end - 1;
    } else if (lines[begin] === '') {
      finish('');
    } else {
      if (beginsRoom(lines[begin]) && !said.every(saysInputs)) finish('');
      said.push(lines[begin]);
    }
  }
  finish('');
  return parts;
}

const withCommas = number => number.toLocaleString('en');

const openButton = run => `<button data-run="${escaped(run)}">step through</button>`;

const isBroken = line => / task broken |, which no line allows, /.test(line);

function cardOf({ lines, run }) {
  const words = lines.map(line => `<span>${escaped(line)}</span>`).join('');
  return `<div class="card${lines.some(isBroken) ? ' broken' : ''}${run ? '' : ' said'}">${words}${run ? openButton(run) : ''}</div>`;
}

// Why there is no answer, in words.
function answerFault({ status, line, fault, words }) {
  if (status === 2) return `Line ${line} has a fault (${fault}), which has to be mended first.`;
  if (status === NO_MEMORY) return words || 'There is not enough memory for this.';
  if (status === 5) return 'The text has more than 16777216 bytes.';
  if (status === 7) return `Value ${line} of the inputs is not a number of 0 to 4294967295, or is there twice, or is one too many: there may be 16.`;
  if (status === 8) return `Line ${line} of the task is no condition: ${view.fault(fault).text.split(': ').slice(1).join(': ').trim()}.`;
  return '';
}

// The cards of a room, or of a reduction with some inputs: first what is said of all its outcomes, and then the outcomes.
function cardsOf(parts) {
  const isOutcome = part => part.run !== '' && !part.lines.some(isBroken);
  const outcomes = parts.filter(isOutcome);
  const more = outcomes.length > CARDS ? `<p>and ${withCommas(outcomes.length - CARDS)} more</p>` : '';
  return `<div class="cards">${[...parts.filter(part => !isOutcome(part)), ...outcomes.slice(0, CARDS)].map(cardOf).join('')}</div>${more}`;
}

function showCards(answer) {
  const rooms = [[]];
  for (const part of partsOf(answer.text)) {
    if (beginsRoom(part.lines[0])) rooms.push([]);
    rooms.at(-1).push(part);
  }
  const incomplete = answer.status === 4 ? 'There was not enough memory for more than this.' : '';
  at('shown').innerHTML = `<p class="fault">${escaped(answerFault(answer) || incomplete)}</p>${rooms.filter(parts => parts.length > 0).map(cardsOf).join('')}`;
}

function fieldOf({ name, words, least, most, usual, empty, isSwitch, isText }, given) {
  const value = given[name] ?? usual;
  const input = isSwitch ? `<input type="checkbox" name="${name}"${given[name] ? ' checked' : ''}>`
    : isText ? `<input name="${name}" value="${escaped(given[name] ?? '')}" placeholder="${escaped(empty)}">`
    : `<input type="number" name="${name}" min="${least}" max="${most}" value="${value}" placeholder="${empty ?? ''}"${empty ? '' : ' required'}>`;
  return `<label>${words} ${input}</label>`;
}

function showFields(mode, given) {
  at('fields').innerHTML = FIELDS[mode].map(field => fieldOf(field, given)).join('') + '<button>search</button>';
}

// What is in the fields: numbers, and texts; an empty one is left out.
function givenFields(mode) {
  const entries = FIELDS[mode].map(({ name, isSwitch, isText }) => {
    const field = at('fields')[name];
    return [name, isSwitch ? Number(field.checked) : isText || field.value === '' ? field.value : Number(field.value)];
  });
  return Object.fromEntries(entries.filter(([, value]) => value !== ''));
}

// The call that answers what the fields ask for, and its options.
function callOf(mode, { task, values, keeps, rooms, ...given }) {
  if (rooms) return { mode: 'rooms', given };
  if (keeps) return { mode: 'keeps', given: { ...given, task: keeps } };
  if (values) return { mode: 'inputs', given: { ...given, values } };
  return { mode: task ? 'task' : mode, given };
}

// Limits that grow up to the one that was asked for.
function growing(first, last) {
  const limits = [];
  for (let limit = first; limit < last; limit *= GROWTH) limits.push(limit);
  return [...limits, last];
}

let searching = null;

function stopSearch() {
  searching?.stop();
  searching = null;
  at('progress').hidden = true;
}

function showProgress(done, limits, name) {
  at('progress').hidden = false;
  Object.assign(at('progress').querySelector('progress'), { value: done, max: limits.length });
  at('progress').querySelector('output').textContent = `${done === 0 ? '' : `${withCommas(limits[done - 1])} of ${withCommas(limits.at(-1))} ${name}; `}going on to ${withCommas(limits[done])}`;
}

// Why what the fields ask for can't be asked for together.
function clashOf({ task, values, keeps, rooms }) {
  if (values && keeps) return 'There can be other inputs, or a task of your own, but not both.';
  if (rooms && (task || values || keeps)) return 'Of all schedules the outcomes are listed: no task is judged, and there are no other inputs.';
  return '';
}

function search(mode, rooms) {
  stopSearch();
  if (!at('fields').checkValidity()) {
    at('fields').reportValidity();
    return;
  }
  const fields = givenFields(mode);
  const clash = clashOf(fields);
  if (clash) {
    at('shown').innerHTML = `<p class="fault">${clash}</p>`;
    return;
  }
  const asked = callOf(mode, fields);
  const { name, growsFrom } = FIELDS[mode].find(field => field.growsFrom);
  const limits = growing(growsFrom, fields[name]);
  at('shown').innerHTML = '';
  showProgress(0, limits, name);
  searching = callInWorker(limits.map(limit => ({ mode: asked.mode, text: rooms, given: { ...asked.given, [name]: limit } })), (answer, index) => {
    const isWhole = mode === 'outcomes' && !/: not searched to the end; /.test(answer.text);
    showCards(answer);
    if (isWhole || index + 1 === limits.length || answer.status > 1) stopSearch();
    else showProgress(index + 1, limits, name);
  });
}
