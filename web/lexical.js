// The editing core in a page or in node, without a server: one WebAssembly module holds any number of editors.
//
//   import { Lexical } from 'vaultsatin';
//   const editor = await Lexical.open();
//   editor.line({ update: [{ append: 'Hello' }] }); // { commit: 1, ops: [..] }
//   editor.close();
//
// No call waits: a line is answered before `line` returns.
import { Calls } from './calls.js';
import { Channel } from './channel.js';
import { CLOSED, DONE, LexicalError, failure } from './errors.js';
import { compiled } from './source.js';

export { LexicalError };

/** @typedef {import('./lexical.js').Source} Source */
/** @typedef {import('./lexical.js').Options} Options */
/** @typedef {import('./lexical.js').Line} Line */
/** @typedef {import('./lexical.js').Reply} Reply */

const SLOT = 16; // bytes of a slot; all zero, it holds no editor

/** One instance of the module, with a memory of its own. Its editors share that memory and nothing else. */
export class Core {
  #calls;
  #channel;

  /** @param {WebAssembly.Instance} instance */
  constructor(instance) {
    this.#calls = new Calls(instance);
    this.#channel = new Channel(this.#calls);
  }

  /**
   * Compiles the module, by default the one beside this file, and makes an instance of it.
   * @param {Source} [source]
   * @returns {Promise<Core>}
   */
  static async load(source) {
    return new Core(await WebAssembly.instantiate(await compiled(source), {}));
  }

  /**
   * A new editor.
   * @param {Options} [options]
   * @returns {Lexical}
   */
  open(options) {
    return new Lexical(this, this.#channel, options);
  }

  /** How many bytes the memory has. It grows as it has to, and never shrinks. */
  get size() {
    return this.#calls.size;
  }

  /**
   * Puts an editor into a new slot: the slot's address.
   * @internal
   * @param {number} delay
   * @param {boolean} view
   * @returns {number}
   */
  begin(delay, view) {
    const slot = this.#calls.take(SLOT);
    this.#calls.bytes.fill(0, slot, slot + SLOT);
    const told = this.#calls.call('lx_live_open', slot, view ? 1 : 0, delay);
    if (told === DONE) return slot;
    this.#calls.give(slot);
    throw failure(told);
  }

  /**
   * Drops the editor of a slot, and the slot. If the module has stopped, both are lost already.
   * @internal
   * @param {number} slot
   */
  end(slot) {
    if (this.#calls.hasStopped) return;
    this.#calls.call('lx_live_close', slot);
    this.#calls.give(slot);
  }
}

/** An editor. */
export class Lexical {
  #core;
  #channel;
  /** @type {number | null} */
  #slot;

  /**
   * What `core.open()` makes.
   * @internal
   * @param {Core} core
   * @param {Channel} channel
   * @param {Options} options
   */
  constructor(core, channel, { delay = 1000, view = false } = {}) {
    if (!Number.isSafeInteger(delay) || delay < 0) throw new RangeError('the delay is a number of milliseconds from 0');
    if (typeof view !== 'boolean') throw new TypeError('view is true or false');
    this.#core = core;
    this.#channel = channel;
    this.#slot = core.begin(delay, view);
  }

  /**
   * An editor in a module of its own.
   * @param {Source} [source]
   * @param {Options} [options]
   * @returns {Promise<Lexical>}
   */
  static async open(source, options) {
    return (await Core.load(source)).open(options);
  }

  /** What holds the editor, for another one beside it: `editor.core.open()`. */
  get core() {
    return this.#core;
  }

  /**
   * Answers a line, as an object, with the reply as an object.
   * @param {Line} line
   * @returns {Reply}
   */
  line(line) {
    const slot = this.#opened();
    return JSON.parse(this.#channel.text(slot, jsonOf(line)));
  }

  /**
   * Answers the JSON of a line, without a line end, with that of the reply. Half a surrogate pair becomes U+FFFD.
   * @param {string} line
   * @returns {string}
   */
  text(line) {
    const slot = this.#opened();
    if (typeof line !== 'string') throw wrongLine(`a string is asked for, not ${nameOf(line)}`);
    if (line.includes('\n')) throw wrongLine('there is a line end in it');
    return this.#channel.text(slot, line);
  }

  /**
   * The same with bytes. A line that isn't UTF-8 is refused as `BadLine`.
   * @param {Uint8Array} line
   * @returns {Uint8Array}
   */
  bytes(line) {
    const slot = this.#opened();
    if (nameOf(line) !== 'Uint8Array') throw wrongLine(`a Uint8Array is asked for, not ${nameOf(line)}`);
    if (line.includes(10)) throw wrongLine('there is a line end in it');
    return this.#channel.bytes(slot, line);
  }

  /** Drops the editor, and gives its memory to the others. Does nothing if it is closed, or the module has stopped. */
  close() {
    if (this.#slot === null) return;
    const slot = this.#slot;
    this.#slot = null;
    this.#core.end(slot);
  }

  #opened() {
    if (this.#slot === null) throw failure(CLOSED);
    return this.#slot;
  }
}

/**
 * @param {unknown} line
 * @returns {string}
 */
function jsonOf(line) {
  if (typeof line !== 'object' || line === null) throw wrongLine(`an object is asked for, not ${nameOf(line)}`);
  let json;
  try {
    json = JSON.stringify(line);
  } catch (error) {
    throw wrongLine(`it can't be written as JSON: ${/** @type {Error} */ (error).message}`, error);
  }
  if (json === undefined) throw wrongLine("it can't be written as JSON"); // its `toJSON` gives nothing
  return json;
}

/**
 * @param {string} what
 * @param {unknown} [cause]
 */
function wrongLine(what, cause) {
  return new LexicalError('line', `this is no line: ${what}`, cause);
}

/**
 * What a value is: its type, or its class for an object that the language defines, also one of another window.
 * @param {unknown} value
 * @returns {string}
 */
function nameOf(value) {
  if (value === null) return 'null';
  return typeof value === 'object' ? Object.prototype.toString.call(value).slice('[object '.length, -1) : typeof value;
}
