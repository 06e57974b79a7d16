// Why the core could not answer.

/** @typedef {import('./lexical.js').ErrorCode} ErrorCode */

/** What the module's calls answer. */
export const DONE = 0, CLOSED = 1, MEMORY = 5, LONG = 6, SPENT = 7;

/** Why the core could not answer a line. A refused line is no error: its reply tells the cause. */
export class LexicalError extends Error {
  /**
   * @param {ErrorCode} code
   * @param {string} message
   * @param {unknown} [cause]
   */
  constructor(code, message, cause) {
    super(message, { cause });
    this.name = 'LexicalError';
    this.code = code;
  }
}

/** @type {Record<number, [ErrorCode, string]>} */
const failures = {
  [CLOSED]: ['closed', 'the editor is closed'],
  [MEMORY]: ['memory', 'there is no memory for that: the editor is as it was, but for updates that waited'],
  [LONG]: ['long', 'the line has more than 16,777,216 bytes: nothing was done'],
  [SPENT]: ['spent', 'the editor has made as many commits as it can: nothing was done'],
};

/**
 * The error for a number that a call has answered.
 * @param {number} told
 * @returns {LexicalError}
 */
export function failure(told) {
  const [code, message] = failures[told] ?? ['broken', `the module has answered ${told}`];
  return new LexicalError(code, message);
}
