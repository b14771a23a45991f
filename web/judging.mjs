// Which answers of the module differ from those of the programs, the same in node and in a browser.

const STATUS = [0, 1, 2, 3, 3, 2, 2, 2, 2]; // the exit status for each status of a call

export async function sumOf(bytes) {
  return Array.from(new Uint8Array(await crypto.subtle.digest('SHA-256', bytes)), byte => byte.toString(16).padStart(2, '0')).join('');
}

async function isSame(answer, { status, line, fault, sum }) {
  return STATUS[answer.status] === status && answer.line === line && answer.fault === fault && (await sumOf(answer.bytes)) === sum;
}

// The places of those `wanted` of a file whose call has another answer. The bytes of its input are the letters of a text.
async function placesIn(view, { input, wanted }) {
  const bytes = Uint8Array.from(input, letter => letter.charCodeAt(0));
  const places = [];
  for (const [place, { call, options, program }] of wanted.entries()) {
    if (!(await isSame(view[call](bytes, options), program))) places.push(place);
  }
  return places;
}

// For each file its number, and the places of what differs.
export async function differing(view, files) {
  const found = [];
  for (const { number, ...file } of files) found.push(...(await placesIn(view, file)).map(place => [number, place]));
  return found;
}
