// ---- links that carry a text: compressed, after the `#` of the address, so that no server sees it

const LONGEST_LINK = 30000; // some programs cut off longer ones

async function through(stream, bytes) {
  return new Uint8Array(await new Response(new Blob([bytes]).stream().pipeThrough(stream)).arrayBuffer());
}

async function packed(text) {
  const bytes = await through(new CompressionStream('deflate-raw'), new TextEncoder().encode(text));
  const letters = Array.from(bytes, byte => String.fromCharCode(byte)).join('');
  return btoa(letters).replaceAll('+', '-').replaceAll('/', '_').replaceAll('=', '');
}

const bytesOf = code => Uint8Array.from(atob(code.trim().replaceAll('-', '+').replaceAll('_', '/')), letter => letter.charCodeAt(0));

const unpacked = async code => new TextDecoder().decode(await through(new DecompressionStream('deflate-raw'), bytesOf(code)));
