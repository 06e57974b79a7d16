// Where the module comes from.

/** @typedef {import('./lexical.js').Source} Source */

const inNode = typeof process === 'object' && typeof process.versions?.node === 'string';

/**
 * Compiles the module, by default the one beside this file.
 * @param {Source} [source]
 * @returns {Promise<WebAssembly.Module>}
 */
export async function compiled(source = new URL('./lexical.wasm', import.meta.url)) {
  if (source instanceof WebAssembly.Module) return source;
  if (source instanceof ArrayBuffer) return WebAssembly.compile(source);
  if (ArrayBuffer.isView(source)) return WebAssembly.compile(/** @type {Uint8Array} */ (source));
  if (typeof Response === 'function' && source instanceof Response) return compiledFrom(source);
  if (typeof source !== 'string' && !(source instanceof URL)) {
    throw new TypeError('a module comes from a URL, a path, a response, bytes or a WebAssembly.Module');
  }
  const file = fileOf(source);
  return file === null ? compiledFrom(await fetch(source)) : WebAssembly.compile(await bytesOf(file));
}

/**
 * The file that node has to read itself, since its `fetch` takes no URL of a file; null for all that is fetched.
 * @param {string | URL} source
 * @returns {string | URL | null}
 */
function fileOf(source) {
  if (!inNode) return null;
  if (source instanceof URL) return source.protocol === 'file:' ? source : null;
  if (/^file:/i.test(source)) return new URL(source);
  return /^[a-z][a-z0-9+.-]+:/i.test(source) ? null : source; // one letter before the colon is a drive
}

/**
 * @param {string | URL} file
 * @returns {Promise<Uint8Array>}
 */
async function bytesOf(file) {
  const name = 'node:fs/promises'; // not written in the import, so that no bundler looks for it
  const { readFile } = await import(/* webpackIgnore: true */ /* @vite-ignore */ name);
  return readFile(file);
}

/**
 * @param {Response} response
 * @returns {Promise<WebAssembly.Module>}
 */
async function compiledFrom(response) {
  if (!response.ok) throw new Error(`the module can't be fetched from ${response.url}: status ${response.status}`);
  const isWasm = response.headers.get('content-type')?.startsWith('application/wasm'); // or it isn't taken as a stream
  return isWasm ? WebAssembly.compileStreaming(response) : WebAssembly.compile(await response.arrayBuffer());
}
