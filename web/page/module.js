// The module of a page that is one file: web/build/page.mjs puts it in there, by gzip and in base64.

/**
 * A response with the module that the page has in itself; nothing where lexical.wasm lies beside the page. It has no
 * type, so that it is compiled as a whole, and not as a stream, of which a script is the source.
 * @returns {Response | undefined}
 */
export function moduleHere() {
  const packed = document.getElementById('lexical-wasm');
  if (!packed) return undefined;
  const bytes = Uint8Array.from(atob(packed.textContent ?? ''), character => character.charCodeAt(0));
  const unpacked = new Blob([bytes]).stream().pipeThrough(new DecompressionStream('gzip'));
  return new Response(unpacked);
}
