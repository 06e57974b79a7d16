// What a person does, as lines over a carrier: one batch after another, each line with its moment, and behind what was
// selected. Acts that come while replies are out wait for their turn.
import { ContentError } from './content-error.js';
import { Moments } from './moments.js';
import { Selected } from './selected.js';

export { explain } from './explain.js';

/** @typedef {import('./lines.js').Line} Line */
/** @typedef {import('./lines.js').Selection} Selection */
/** @typedef {import('./replies.js').Reply} Reply */
/** @typedef {import('./lexical.js').Lexical} Lexical */
/** @typedef {import('./session.js').Carrier} Carrier */
/** @typedef {import('./session.js').SessionOptions} SessionOptions */
/** @typedef {{ lines: Line[], at: number, last: number, selection: Selection, hasMoved: boolean }} Act */

/**
 * Codes of errors after which an editor answers no line any more.
 * @type {Set<unknown>}
 */
const lasting = new Set(['closed', 'broken', 'spent']);

export class Session {
  #carrier;
  #onReply;
  #moments;
  #selected = new Selected();
  #waiting = 0;
  /** @type {Promise<void>} */
  #acts = Promise.resolve();
  /** @type {{ error: unknown } | null} */
  #ended = null;

  /**
   * @param {Carrier} carrier
   * @param {SessionOptions} options
   */
  constructor(carrier, { now = Date.now, onReply = () => {} } = {}) {
    if (typeof carrier?.send !== 'function') throw new TypeError('a carrier has a method send');
    if (typeof onReply !== 'function') throw new TypeError('onReply is a function');
    this.#carrier = carrier;
    this.#onReply = onReply;
    this.#moments = new Moments(now);
  }

  /** Whether an act waits or is under way. */
  get isBusy() {
    return this.#waiting > 0;
  }

  /** Somebody else may have selected something: what comes with the next act is sent in any case. */
  forget() {
    this.#selected.forget();
  }

  /** Waits until no act does. */
  async idle() {
    while (this.isBusy) await this.#acts;
  }

  /**
   * Sends lines in their turn, behind what is selected.
   * @param {Line | readonly Line[]} lines
   * @param {Selection} [selection]
   * @returns {Promise<Reply[]>}
   */
  async do(lines, selection = null) {
    const act = this.#actOf(lines, selection);
    this.#waiting += 1;
    const done = this.#acts.then(() => this.#perform(act)).finally(() => { this.#waiting -= 1; });
    this.#acts = done.then(() => {}, () => {});
    return done;
  }

  /**
   * @param {Line | readonly Line[]} lines
   * @param {Selection} selection
   * @returns {Act}
   */
  #actOf(lines, selection) {
    const list = Array.isArray(lines) ? lines : [lines];
    const wrong = list.findIndex(line => typeof line !== 'object' || line === null || Array.isArray(line));
    if (wrong >= 0) throw new TypeError(`line ${wrong} of the act is no object`);
    if (typeof selection !== 'object') throw new TypeError('what is selected is an object or null');
    const { at, last, timed } = this.#moments.put(list);
    return { lines: timed, at, last, selection, hasMoved: this.#selected.hasMoved(selection) };
  }

  /**
   * @param {Act} act
   * @returns {Promise<Reply[]>}
   */
  async #perform({ lines, at, last, selection, hasMoved }) {
    const shown = { at: last, show: /** @type {const} */ ('selection') };
    const isSelected = this.#selected.isToSend(selection, hasMoved);
    if (isSelected) {
      const [{ refused }] = await this.#ask([{ at, update: [{ select: selection }] }]);
      if (refused) {
        await this.#ask([shown]);
        return lines.map(() => ({ refused })); // they were meant for another place than what the core has
      }
    }
    const isToShow = isSelected || lines.some(maySelect);
    const replies = lines.length > 0 || isToShow ? await this.#ask(isToShow ? [...lines, shown] : lines) : [];
    return replies.slice(0, lines.length);
  }

  /**
   * Sends a batch, and passes on what is answered, also where the carrier stopped halfway.
   * @param {Line[]} lines
   * @returns {Promise<Reply[]>}
   */
  async #ask(lines) {
    if (this.#ended) throw this.#ended.error;
    if (lines.some(maySelect)) this.#selected.forget();
    /** @type {Reply[]} */
    let replies;
    try {
      replies = repliesTo(lines, await this.#carrier.send(lines));
    } catch (error) {
      this.#fail(lines, error);
      throw error;
    }
    const [thrown] = this.#pass(lines, replies);
    if (thrown) throw thrown.error;
    return replies;
  }

  /**
   * Takes what an error of the carrier tells: whether it lasts, and what was answered before.
   * @param {Line[]} lines
   * @param {unknown} error
   */
  #fail(lines, error) {
    const { code, replies } = /** @type {{ code?: unknown, replies?: unknown }} */ (Object(error));
    if (lasting.has(code)) this.#ended = { error };
    if (Array.isArray(replies)) this.#pass(lines, replies.slice(0, lines.length));
    this.#selected.forget(); // of lines that weren't answered, some may be done
  }

  /**
   * Passes each reply on: what was thrown at that. The others are passed on all the same, since their lines are done.
   * @param {Line[]} lines
   * @param {Reply[]} replies
   */
  #pass(lines, replies) {
    /** @type {{ error: unknown }[]} */
    const thrown = [];
    replies.forEach((reply, index) => {
      if (lines[index].show === 'selection' && reply.selection !== undefined) this.#selected.learn(reply.selection);
      try {
        this.#onReply(reply, lines[index]);
      } catch (error) {
        thrown.push({ error });
      }
    });
    return thrown;
  }
}

/**
 * Whether the core may have selected something else after a line.
 * @param {Line} line
 */
function maySelect(line) {
  return line.show === undefined && line.clear === undefined && line.listener === undefined;
}

/**
 * @param {Line[]} lines
 * @param {unknown} replies
 * @returns {Reply[]}
 */
function repliesTo(lines, replies) {
  const isWhole = Array.isArray(replies) && replies.length === lines.length;
  if (isWhole && replies.every(reply => typeof reply === 'object' && reply !== null)) return replies;
  throw new ContentError('operation', `${lines.length} lines were sent, and what came back isn't as many replies`);
}

/**
 * An editor as a carrier. Where it can't answer a line, the error has the replies to those before.
 * @param {Lexical} editor
 * @returns {Carrier}
 */
export function carrierOf(editor) {
  if (typeof editor?.line !== 'function') throw new TypeError('an editor has a method line');
  return {
    send(lines) {
      /** @type {Reply[]} */
      const replies = [];
      try {
        for (const line of lines) replies.push(editor.line(line));
      } catch (error) {
        throw Object.assign(/** @type {Error} */ (error), { replies });
      }
      return replies;
    },
  };
}
