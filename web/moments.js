// The moments of lines, which the history tells typing in one go by. They never fall, though clocks may be set back.

/** @typedef {import('./lines.js').Line} Line */

export class Moments {
  #now;
  #last = 0;

  /** @param {() => number} now */
  constructor(now) {
    if (typeof now !== 'function') throw new TypeError('now is a function');
    this.#now = now;
  }

  /**
   * Copies of lines, each with a moment; those that have one keep it. `at` is now, and `last` when the last line is.
   * @param {readonly Line[]} lines
   */
  put(lines) {
    const told = this.#now();
    if (!Number.isFinite(told)) throw new TypeError('now() gives a number of milliseconds');
    const at = this.#last = Math.max(this.#last, Math.floor(told));
    const timed = lines.map(line => {
      if (typeof line.at === 'number') this.#last = Math.max(this.#last, line.at);
      return line.at === undefined ? { ...line, at: this.#last } : { ...line };
    });
    return { at, last: this.#last, timed };
  }
}
