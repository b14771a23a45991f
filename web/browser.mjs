// The comparison in a browser: it opens a page of a server on this machine, which takes the module and the files from it, and says what differs.
import { createServer } from 'http';
import { spawn } from 'child_process';
import { mkdtempSync, readFileSync, rmSync } from 'fs';
import { tmpdir } from 'os';
import { join } from 'path';

const AT_ONCE = 40; // files that the page gets
const LONGEST = 600; // seconds in which it asks for nothing
const PAGE = `<!DOCTYPE html><title>bgview</title><script type="module">
import { load } from '/bgview.mjs';
import { differing } from '/judging.mjs';
const post = (path, what) => fetch(path, { method: 'POST', body: JSON.stringify(what) });
try {
  const memory = await (await fetch('/memory')).json();
  const view = await load(await (await fetch('/module')).arrayBuffer(), memory);
  for (;;) {
    const files = await (await fetch('/files')).json();
    if (files.length === 0) break;
    await post('/differing', await differing(view, files));
  }
  await post('/done', navigator.userAgent);
} catch (error) {
  await post('/failed', String(error));
}
</script>`;

function wordsFor(program, folder) {
  if (/firefox/.test(program)) return ['--headless', '--no-remote', '--profile', folder];
  return ['--headless', '--no-sandbox', '--disable-gpu', '--no-first-run', '--disable-extensions', `--user-data-dir=${folder}`];
}

async function bodyOf(request) {
  const parts = [];
  for await (const part of request) parts.push(part);
  return JSON.parse(Buffer.concat(parts));
}

// Answers the page's requests, up to the one with which it ends: what it is, and what differs.
function serve(server, module, files, memory) {
  const code = name => readFileSync(new URL(name, import.meta.url));
  const given = {
    '/': ['text/html', () => PAGE],
    '/bgview.mjs': ['text/javascript', () => code('bgview.mjs')],
    '/judging.mjs': ['text/javascript', () => code('judging.mjs')],
    '/module': ['application/wasm', () => module],
    '/memory': ['application/json', () => JSON.stringify(memory)],
    '/files': ['application/json', () => JSON.stringify(files.splice(0, AT_ONCE))],
  };
  const found = [];
  return new Promise((resolve, reject) => {
    let waiting;
    const wait = () => {
      clearTimeout(waiting);
      waiting = setTimeout(() => reject(new Error(`the page asks for nothing in ${LONGEST} seconds`)), 1000 * LONGEST);
    };
    const end = ended => {
      clearTimeout(waiting);
      ended();
    };
    wait();
    server.on('request', async (request, response) => {
      wait();
      const [type, answer] = given[request.url] ?? ['text/plain', () => ''];
      const said = request.method === 'POST' ? await bodyOf(request) : null;
      response.writeHead(200, { 'Content-Type': type }).end(answer());
      if (request.url === '/differing') found.push(...said);
      if (request.url === '/done') end(() => resolve({ engine: said, found }));
      if (request.url === '/failed') end(() => reject(new Error(said)));
    });
    server.on('ended', () => end(() => reject(new Error('the browser has ended'))));
  });
}

// What differs in a browser, and which one it is.
// `memory` is how the page loads the module.
export async function inBrowser(program, module, files, memory) {
  const folder = mkdtempSync(join(tmpdir(), 'bgview-'));
  const server = createServer();
  await new Promise(resolve => server.listen(0, '127.0.0.1', resolve));
  const browser = spawn(program, [...wordsFor(program, folder), `http://127.0.0.1:${server.address().port}/`], { stdio: 'ignore' });
  const ended = new Promise(resolve => browser.on('error', resolve).on('exit', resolve)).then(() => server.emit('ended'));
  try {
    return await serve(server, module, [...files], memory);
  } finally {
    browser.kill();
    await ended;
    server.closeAllConnections();
    server.close();
    rmSync(folder, { recursive: true, force: true, maxRetries: 20, retryDelay: 100 });
  }
}
