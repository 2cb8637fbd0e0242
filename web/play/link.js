// A session in the fragment of a link: its lines, deflated where the browser can, as base64 for addresses.
const MOST_BYTES = 8000000;

async function through(bytes, stream) {
  const reader = new Blob([bytes]).stream().pipeThrough(stream).getReader();
  const parts = [];
  let length = 0;
  for (let part = await reader.read(); !part.done; part = await reader.read()) {
    parts.push(part.value);
    length += part.value.length;
    if (length > MOST_BYTES) throw new Error('the session in this link is too long');
  }
  return new Uint8Array(await new Blob(parts).arrayBuffer());
}

function written(bytes) {
  let text = '';
  for (let at = 0; at < bytes.length; at += 8192) text += String.fromCharCode(...bytes.subarray(at, at + 8192));
  return btoa(text).replaceAll('+', '-').replaceAll('/', '_').replaceAll('=', '');
}

function read(word) {
  const text = atob(word.replaceAll('-', '+').replaceAll('_', '/'));
  return Uint8Array.from(text, (each) => each.charCodeAt(0));
}

/** The fragment that carries a text, with its #. */
export async function fragmentOf(text) {
  const bytes = new TextEncoder().encode(text);
  if (!('CompressionStream' in window)) return `#s=${written(bytes)}`;
  return `#z=${written(await through(bytes, new CompressionStream('deflate-raw')))}`;
}

/** The text that a fragment carries; null where it carries none. Throws where it can't be read. */
export async function textOf(fragment) {
  const found = /^#([sz])=([A-Za-z0-9_-]*)$/.exec(fragment);
  if (!found) return null;
  try {
    const bytes = read(found[2]);
    const plain = found[1] === 'z' ? await through(bytes, new DecompressionStream('deflate-raw')) : bytes;
    return new TextDecoder('utf-8', { fatal: true }).decode(plain);
  } catch {
    throw new Error('The session in this link can\'t be read.');
  }
}
