// What bgsim and bgview answer, by the WebAssembly module of their library. `const view = await load(bytes)` has a function for each call of
// include/bgview.h: `view.trace('open\n..', { json: true })` gives { status, fault, line, length, bytes, text }. The module asks its host for nothing.

const LARGEST = 0xffffffff;
const OPTIONS = {
  check: [], play: [], lint: [], warnings: [], transcript: [], page: [],
  trace: [['json', false]], why: [['json', false]],
  draw: [['percent', 100], ['byTurns', false]],
  outcomes: [['crashes', LARGEST], ['nodes', 1000000], ['brief', false]],
  task: [['crashes', LARGEST], ['nodes', 1000000]],
  inputs: [['nodes', 1000000]], keeps: [['nodes', 1000000]],
  grade: [['commands', LARGEST]],
};
const JSON_TOO = ['outcomes', 'task', 'inputs', 'keeps', 'grade']; // with `json: true` these are calls of their own
const WITH_TASK = ['why', 'page']; // and with `task` these are
const TEXTS = { grade: 'goal', inputs: 'values', keeps: 'task' }; // the calls with a second input, and the option that has it
// The calls whose options are a struct of C: its numbers, and after them its flags.
const STRUCTS = {
  sample: { numbers: [['schedules', 1000], ['crashes', 1], ['seed', 1], ['from', 0], ['top', LARGEST], ['outcome', LARGEST]], flags: ['group', 'brief', 'json'] },
  rooms: { numbers: [['crashes', LARGEST], ['nodes', 1000000]], flags: ['brief', 'json'] },
};
const RESULT = 24; // the bytes of a struct bgview_result
const NO_MEMORY = 3;

// The bytes of a struct with these numbers and flags.
function structOf({ numbers, flags }, given) {
  const bytes = new DataView(new ArrayBuffer(4 * numbers.length + 4));
  numbers.forEach(([name, value], index) => bytes.setUint32(4 * index, given[name] ?? value, true));
  flags.forEach((name, index) => bytes.setUint8(4 * numbers.length + index, Number(given[name] ?? false)));
  return new Uint8Array(bytes.buffer);
}

// `most` is how many bytes of memory a call may take, and `size` how large the first buffer for an answer is.
export async function load(bytes, { most = 1024 * 1048576, size: usual = 1048576 } = {}) {
  const module = await WebAssembly.compile(bytes);
  const start = () => new WebAssembly.Instance(module).exports;
  let exports = start();
  const encoder = new TextEncoder();
  const decoder = new TextDecoder();
  const take = size => Number(exports.heap_take(BigInt(size)));

  // One call, with a buffer of this size. Each of `more` is a number, or the bytes of a struct.
  function attempt(name, inputs, more, size) {
    exports.heap_reset(BigInt(most));
    const read = [...inputs, ...more.filter(one => one instanceof Uint8Array)];
    const places = [...read.map(bytes => take(bytes.length || 1)), take(size), take(RESULT)];
    if (places.includes(0)) return { status: NO_MEMORY, fault: 0, line: 0, length: 0, bytes: new Uint8Array(), text: '' };
    const [to, result] = places.slice(read.length);
    read.forEach((bytes, index) => new Uint8Array(exports.memory.buffer).set(bytes, places[index]));
    const slices = inputs.flatMap((input, index) => [places[index], BigInt(input.length)]);
    const others = more.map(one => (one instanceof Uint8Array ? places[read.indexOf(one)] : one));
    try {
      exports[`bgview_${name}`](...slices, ...others, to, BigInt(size), result);
    } catch (error) {
      exports = start(); // the stack has overflowed, so nothing of this instance is used again
      throw error;
    }
    const ended = new DataView(exports.memory.buffer, result, RESULT);
    const length = Number(ended.getBigUint64(16, true));
    const bytes = length > size ? null : new Uint8Array(exports.memory.buffer, to, length).slice(); // a copy: the next call takes this memory
    const text = bytes && decoder.decode(bytes);
    return { status: ended.getUint32(0, true), fault: ended.getUint32(4, true), line: Number(ended.getBigUint64(8, true)), length, bytes, text };
  }

  function call(name, inputs, more) {
    const encoded = inputs.map(input => (typeof input === 'string' ? encoder.encode(input) : input));
    const answer = attempt(name, encoded, more, usual);
    return answer.text === null ? attempt(name, encoded, more, answer.length) : answer;
  }

  const view = {
    memory: () => exports.memory.buffer.byteLength,
    fault: number => call('fault', [], [number]),
  };
  for (const [name, struct] of Object.entries(STRUCTS)) {
    view[name] = (input, given = {}) => call(name, [input], [structOf(struct, given)]);
  }
  for (const [name, options] of Object.entries(OPTIONS)) {
    view[name] = (input, given = {}) => {
      if (given.task !== undefined && WITH_TASK.includes(name)) return call(`${name}_with${given.json ? '_json' : ''}`, [input, given.task], []);
      const more = options.map(([option, value]) => Number(given[option] ?? value));
      const called = given.json && JSON_TOO.includes(name) ? `${name}_json` : name;
      return call(called, TEXTS[name] ? [input, given[TEXTS[name]] ?? ''] : [input], more);
    };
  }
  return view;
}
