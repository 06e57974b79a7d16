#!/usr/bin/env node
// Answers lines as the program `lexical` does, by the module: each line of standard input, as it ends, by a line on
// standard output. Lines about views and outlines, and generated sessions, need the program.
import { fstatSync } from 'node:fs';
import { Core, LexicalError } from './lexical.js';
import { Pending } from './pending.js';
import { optionsOf } from './words.js';

const INPUT_LIMIT = 16_777_216; // bytes in all
const LINE_END = 10;
const USAGE = 2, READ_FAULT = 3, WRITE_FAULT = 4, MEMORY = 5, INPUT_TOO_LONG = 6; // statuses

/** Why a run ends before its input does. */
class Stop extends Error {
  /**
   * @param {number} status
   * @param {string} message
   */
  constructor(status, message) {
    super(message);
    this.status = status;
  }
}

/** @param {string[]} words */
async function run(words) {
  const options = optionsOf(words);
  if (options === null) throw new Stop(USAGE, 'usage');
  if ('needs' in options) throw new Stop(USAGE, `${options.needs} needs the program`);
  const core = await Core.load();
  const editor = core.open(options);
  const pending = new Pending();
  await readAll(piece => take(editor, pending, piece));
  if (pending.length > 0) await answer(editor, pending.take());
}

/**
 * Reads the input to its end, or its limit: what comes behind that is neither taken nor awaited.
 * @param {(piece: Uint8Array) => Promise<void>} take
 */
async function readAll(take) {
  let mayCome = INPUT_LIMIT;
  for await (const piece of pieces()) {
    await take(piece.subarray(0, mayCome));
    if (piece.length > mayCome) throw new Stop(INPUT_TOO_LONG, 'input too long');
    mayCome -= piece.length;
  }
}

/** @returns {AsyncGenerator<Uint8Array>} */
async function* pieces() {
  if (fstatSync(0).isDirectory()) throw new Stop(READ_FAULT, 'read fault'); // which node takes for an empty input
  const input = process.stdin[Symbol.asyncIterator]();
  try {
    for (;;) {
      const { value, done } = await input.next().catch(() => { throw new Stop(READ_FAULT, 'read fault'); });
      if (done) return;
      yield value;
    }
  } finally {
    process.stdin.destroy();
  }
}

/**
 * Takes a piece of the input, and answers the lines that it ends.
 * @param {import('./lexical.js').Lexical} editor
 * @param {Pending} pending
 * @param {Uint8Array} piece
 */
async function take(editor, pending, piece) {
  let at = 0;
  for (let end = piece.indexOf(LINE_END); end >= 0; end = piece.indexOf(LINE_END, at)) {
    const rest = piece.subarray(at, end);
    await answer(editor, pending.length === 0 ? rest : pending.take(rest));
    at = end + 1;
  }
  pending.add(piece.subarray(at));
}

/**
 * Answers a line, and writes the reply at once: who sent the line may wait for it.
 * @param {import('./lexical.js').Lexical} editor
 * @param {Uint8Array} line
 */
async function answer(editor, line) {
  const reply = editor.bytes(line);
  const ended = new Uint8Array(reply.length + 1);
  ended.set(reply);
  ended[reply.length] = LINE_END;
  await new Promise((resolve, reject) => {
    process.stdout.write(ended, fault => fault ? reject(new Stop(WRITE_FAULT, 'write fault')) : resolve(undefined));
  });
}

/**
 * The end of a run that an error makes. Any other error, as of a module that stopped, is node's to tell.
 * @param {unknown} error
 * @returns {Stop}
 */
function stopOf(error) {
  if (error instanceof LexicalError && error.code === 'memory') return new Stop(MEMORY, 'memory');
  if (error instanceof Stop) return error;
  throw error;
}

process.stdout.on('error', () => {}); // each write hears of its own fault
try {
  await run(process.argv.slice(2));
} catch (error) {
  const { message, status } = stopOf(error);
  console.error(`lexical: ${message}`);
  process.exitCode = status;
}
