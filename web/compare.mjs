// node web/compare.mjs [--some N] [--in BROWSER] MODULE FILE..: whether the module answers each file in each mode, or in N modes by turns, as the programs bgsim and bgview
// on the path do, with the same bytes (by their SHA-256), status, line and fault: in node, and in a browser if one is named. `@FILE` is a list of files.
import { load } from './bgview.mjs';
import { inBrowser } from './browser.mjs';
import { differing, sumOf } from './judging.mjs';
import { execFile, execFileSync } from 'child_process';
import { webcrypto } from 'crypto';
import { readFileSync } from 'fs';
import { availableParallelism } from 'os';

globalThis.crypto ??= webcrypto;

function options(words) {
  const given = { some: Infinity, browser: null };
  while (words[0]?.startsWith('--')) {
    const [name, value] = words.splice(0, 2);
    if (name === '--some' && Number(value) > 0) given.some = Number(value);
    else if (name === '--in' && value) given.browser = value;
    else return null;
  }
  const [module, ...files] = words;
  return files.length > 0 ? { ...given, module, files: files.flatMap(file => (file.startsWith('@') ? readFileSync(file.slice(1), 'utf8').split('\n').filter(Boolean) : [file])) } : null;
}

const given = options(process.argv.slice(2));
if (!given) {
  console.error('usage: node web/compare.mjs [--some N] [--in BROWSER] MODULE FILE..');
  process.exit(2);
}
// A room at random may have so many outcomes that the list doesn't fit into the module's memory, so fewer nodes are searched there, and it gets 2 GiB.
const NODES = given.some === Infinity ? 20000 : 1000;
const memory = given.some === Infinity ? {} : { most: 2 ** 31 };
// The numbers of the faults of protocols and of tasks, by what the program says of them.
const SENTENCES = new Map(execFileSync('bgview', ['fault', '1', '2', '3', '4', '5', '6', '7', '8'], { encoding: 'utf8' }).trim().split('\n').map(line => line.split(': ')).map(([number, ...words]) => [words.join(': '), number]));
// For each the call, the program's words, the options of the call, and whether its answer is what the program writes to standard error.
const MODES = [
  ['check', 'bgsim check', {}], ['play', 'bgsim play', {}], ['why', 'bgview why', {}], ['why', 'bgview why --json', { json: true }],
  ['trace', 'bgview trace', {}], ['trace', 'bgview trace --json', { json: true }], ['lint', 'bgview lint', {}], ['warnings', 'bgview lint', {}, true],
  ['transcript', 'bgview transcript', {}],
  ['draw', 'bgview draw', {}], ['draw', 'bgview draw --turns --scale 50', { percent: 50, byTurns: true }], ['page', 'bgview page', {}],
  ['outcomes', `bgview outcomes --nodes ${NODES}`, { nodes: NODES }],
  ['outcomes', `bgview outcomes --nodes ${NODES} --brief --crashes 0`, { nodes: NODES, brief: true, crashes: 0 }],
  ['task', `bgview outcomes --nodes ${NODES} --task`, { nodes: NODES }], ['task', `bgview outcomes --nodes ${NODES} --task --crashes 0`, { nodes: NODES, crashes: 0 }],
  ['inputs', 'bgview outcomes --nodes 200 --inputs 0,7', { nodes: 200, values: '0,7' }], ['inputs', 'bgview outcomes --inputs 4,4', { values: '4,4' }],
  ['keeps', `bgview outcomes --nodes ${NODES} --keeps equal(mine)_==_count;given_>=_2`, { nodes: NODES, task: 'equal(mine) == count;given >= 2' }],
  ['keeps', 'bgview outcomes --keeps count', { task: 'count' }],
  ['outcomes', `bgview outcomes --nodes ${NODES} --json`, { nodes: NODES, json: true }], ['task', `bgview outcomes --nodes ${NODES} --task --json`, { nodes: NODES, json: true }],
  ['inputs', 'bgview outcomes --nodes 200 --inputs 0,7 --json', { nodes: 200, values: '0,7', json: true }],
  ['why', 'bgview why --keeps equal(mine)_==_count', { task: 'equal(mine) == count' }], ['why', 'bgview why --json --keeps given_>=_1', { task: 'given >= 1', json: true }],
  ['why', 'bgview why --keeps mine_<=', { task: 'mine <=' }], ['page', 'bgview page --keeps mine_==_min', { task: 'mine == min' }],
  ['rooms', 'bgview outcomes --rooms --nodes 2000 --crashes 0', { nodes: 2000, crashes: 0 }], ['rooms', 'bgview outcomes --rooms --nodes 2000 --json --brief', { nodes: 2000, json: true, brief: true }],
  ['sample', 'bgview sample --schedules 20', { schedules: 20 }], ['sample', 'bgview sample --schedules 20 --from 4294967290', { schedules: 20, from: 4294967290 }],
  ['sample', 'bgview sample --schedules 20 --crashes 2 --seed 5 --group --brief --top 2', { schedules: 20, crashes: 2, seed: 5, group: true, brief: true, top: 2 }],
  ['sample', 'bgview sample --schedules 20 --json --outcome 2', { schedules: 20, json: true, outcome: 2 }],
  ['grade', 'bgview grade --commands 2 --goal spent', { commands: 2, goal: 'spent' }],
  ['grade', 'bgview grade --goal spent_0', { goal: 'spent 0' }], ['grade', 'bgview grade --json --commands 2 --goal spent_0', { commands: 2, goal: 'spent 0', json: true }],
];

// The line and the number of the fault that a program names: of its input, or of an option's text.
function namedIn(said) {
  const [, line, fault] = /^bg\w+: line (\d+): fault (\d+)\n/.exec(said) ?? [];
  const [, of] = /^bg\w+: (?:claim|value|line) (\d+) of /.exec(said) ?? [];
  const [, sentence] = /^bg\w+: line \d+ of --keeps, byte \d+: (.*)\n/.exec(said) ?? [];
  return { line: Number(line ?? of ?? 0), fault: Number(fault ?? SENTENCES.get(sentence) ?? 0) };
}

// What a program answers to a file; or what it warns of, with which all is well.
function answered(command, file, isWarning) {
  const [program, ...rest] = command.split(' ').map(word => word.replaceAll('_', ' '));
  return new Promise((resolve, reject) => {
    execFile(program, [...rest, file], { encoding: 'buffer', maxBuffer: 1 << 30 }, async (error, stdout, stderr) => {
      if (error && typeof error.code !== 'number') return reject(error);
      if (isWarning) return resolve({ status: 0, line: 0, fault: 0, sum: await sumOf(stderr) });
      resolve({ status: error ? error.code : 0, ...namedIn(String(stderr)), sum: await sumOf(stdout) });
    });
  });
}

// Some modes of each file, such that each mode has as many files as any other; and what the programs answer.
const count = Math.min(given.some, MODES.length);
const files = given.files.map((file, number) => {
  const modes = Array.from({ length: count }, (_, place) => MODES[(number * count + place) % MODES.length]);
  return { number, input: readFileSync(file, 'latin1'), wanted: modes.map(([call, command, options, isWarning]) => ({ call, options, command, isWarning })) };
});
const queue = files.flatMap(({ number, wanted }) => wanted.map(one => [given.files[number], one])).values();
try {
  await Promise.all(Array.from({ length: availableParallelism() }, async () => {
    for (const [file, one] of queue) one.program = await answered(one.command, file, one.isWarning);
  }));
} catch (error) {
  console.error(`node web/compare.mjs: the programs bgsim and bgview have to be on the path (${error.message})`);
  process.exit(2);
}

const total = count * files.length;
const module = readFileSync(given.module);

async function inNode() {
  return { engine: `node ${process.version}`, found: await differing(await load(module, memory), files) };
}

function differences({ engine, found }) {
  for (const [number, place] of found) console.log(`differs: ${files[number].wanted[place].command} ${given.files[number]}`);
  console.log(`${total - found.length} of ${total} answers are the same in ${engine}`);
  return found.length;
}

let faults = differences(await inNode());
if (given.browser) {
  try {
    faults += differences(await inBrowser(given.browser, module, files, memory));
  } catch (error) {
    console.log(`${given.browser}: ${error.message}`);
    faults++;
  }
}
process.exit(faults === 0 ? 0 : 1);
