// What the tests share: the module, stored lines, and the program over the module.
import { spawnSync } from 'node:child_process';
import { cpSync, mkdtempSync, readFileSync, readdirSync, rmSync, writeFileSync } from 'node:fs';
import { tmpdir } from 'node:os';
import { join } from 'node:path';
import { after } from 'node:test';
import { fileURLToPath } from 'node:url';
import { Core } from '../lexical.js';

export const web = fileURLToPath(new URL('..', import.meta.url));
export const top = fileURLToPath(new URL('../..', import.meta.url));
/** The bytes of the module that is tested: another one than that of the package, if LEXICAL_WASM names it. */
export const moduleBytes = readFileSync(process.env.LEXICAL_WASM ?? join(web, 'lexical.wasm'));

export const newCore = (bytes = moduleBytes) => Core.load(bytes);

/** The stored sessions: a name, the lines and the replies, as they are in the files. */
export const examples = readdirSync(join(top, 'examples')).filter(file => file.endsWith('.jsonl')).map(file => ({
  name: file.slice(0, -'.jsonl'.length),
  input: readFileSync(join(top, 'examples', file)),
  replies: readFileSync(join(top, 'examples', file.replace(/jsonl$/, 'replies'))),
}));

/** The lines of an input, without their ends; a last one that is empty is none. */
export function linesOf(input) {
  const lines = [];
  for (let at = 0; at < input.length;) {
    const found = input.indexOf(10, at);
    const end = found < 0 ? input.length : found;
    lines.push(input.subarray(at, end));
    at = end + 1;
  }
  return lines;
}

/** A folder of its own for the files of a test, until the tests of the file have run. */
export function newFolder() {
  const folder = mkdtempSync(join(tmpdir(), 'vaultsatin-'));
  after(() => rmSync(folder, { recursive: true }));
  return folder;
}

/** A copy of what the package has, with the module that is tested, or another: the program in it. */
export function packedProgram(bytes = moduleBytes) {
  const folder = newFolder();
  const sources = readdirSync(web).filter(file => /\.(m?js|json)$/.test(file));
  for (const file of sources) cpSync(join(web, file), join(folder, file));
  writeFileSync(join(folder, 'lexical.wasm'), bytes);
  return join(folder, 'cli.mjs');
}

/** A run of the program in node. */
export function runProgram(program, words, input, stdio = 'pipe') {
  const run = spawnSync(process.execPath, [program, ...words], { input, stdio, maxBuffer: 2 ** 30 });
  return { status: run.status, stdout: run.stdout, stderr: run.stderr.toString() };
}

/** Some letters. */
export const letters = count => 'abcdefghij'.repeat(Math.ceil(count / 10)).slice(0, count);

/** All that an editor tells of itself. */
export function stateOf(editor) {
  return ['state', 'view', 'selection', 'history'].map(show => editor.text(JSON.stringify({ show }))).join('\n');
}

/** The code of the error that an act throws, or null. */
export function codeOf(act) {
  try {
    act();
    return null;
  } catch (error) {
    if (error.code === undefined) throw error;
    return error.code;
  }
}
