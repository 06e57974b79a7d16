// The calls of the module, and its memory. Addresses and sizes are numbers from 0, though the module gives signed ones.
import { LexicalError, MEMORY, failure } from './errors.js';

/** @typedef {'lx_take' | 'lx_give' | 'lx_live_open' | 'lx_live_line' | 'lx_live_reply' | 'lx_live_close'} Name */

/** @type {Name[]} */
const names = ['lx_take', 'lx_give', 'lx_live_open', 'lx_live_line', 'lx_live_reply', 'lx_live_close'];

/** An instance of the module. A call that doesn't return leaves its memory half written, so that one is the last. */
export class Calls {
  /** @type {Record<Name, (...given: number[]) => number>} */
  #exports;
  /** @type {WebAssembly.Memory} */
  #memory;
  #bytes = new Uint8Array(0);
  /** @type {unknown} */
  #stoppedBy = null;

  /** @param {WebAssembly.Instance} instance */
  constructor(instance) {
    const exports = /** @type {any} */ (instance.exports);
    const missing = names.find(name => typeof exports[name] !== 'function') ?? (exports.memory ? null : 'memory');
    if (missing) throw new TypeError(`the module has no ${missing}: it is another one`);
    this.#exports = exports;
    this.#memory = exports.memory;
  }

  /** Whether a call has stopped the module for good. */
  get hasStopped() {
    return this.#stoppedBy !== null;
  }

  /** How many bytes the memory has. */
  get size() {
    return this.#memory.buffer.byteLength;
  }

  /** The bytes of the memory: another array after each growth. */
  get bytes() {
    if (this.#bytes.buffer !== this.#memory.buffer) this.#bytes = new Uint8Array(this.#memory.buffer);
    return this.#bytes;
  }

  /**
   * @param {Name} name
   * @param {number[]} given
   * @returns {number}
   */
  call(name, ...given) {
    if (this.hasStopped) throw new LexicalError('broken', 'the module has stopped in an earlier call', this.#stoppedBy);
    try {
      return this.#exports[name](...given);
    } catch (error) {
      this.#stoppedBy = error;
      throw new LexicalError('broken', `the module has stopped: ${/** @type {Error} */ (error).message}`, error);
    }
  }

  /**
   * So many bytes of the module's heap: their address.
   * @param {number} size
   */
  take(size) {
    const at = this.call('lx_take', size) >>> 0;
    if (at === 0) throw failure(MEMORY);
    return at;
  }

  /**
   * Gives back what was taken. Where the module has stopped nothing can be given, nor is it missed.
   * @param {number} at
   */
  give(at) {
    if (!this.hasStopped) this.call('lx_give', at);
  }
}
