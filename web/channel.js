// How lines go into the module and replies come out of it: through two buffers in its memory.
import { DONE, LONG, LexicalError, failure } from './errors.js';

/** @typedef {import('./calls.js').Calls} Calls */
/** @typedef {{ at: number, size: number }} Buffer bytes of the module's memory that are used again and again */

const LENGTH = 8; // bytes of the length that a call writes: a number of 64 bits, of which the upper half is 0
const LONGEST = 16_777_216; // bytes of a line
const KEPT = 1 << 20; // bytes that a buffer has at most: no huge line or reply holds memory for ever
const encoder = new TextEncoder();
const decoder = newDecoder();

/** The lines of all editors of a module. */
export class Channel {
  #calls;
  #length;
  #input;
  #output;

  /** @param {Calls} calls */
  constructor(calls) {
    this.#calls = calls;
    this.#length = calls.take(LENGTH);
    this.#input = this.#buffer(1 << 12);
    this.#output = this.#buffer(1 << 14);
  }

  /**
   * Answers a line with the text of its reply.
   * @param {number} slot
   * @param {string} line
   * @returns {string}
   */
  text(slot, line) {
    const length = this.#answer(slot, line);
    if (length <= this.#output.size) return decoder.decode(this.#front(length));
    const pieces = newDecoder(); // one of its own, since a piece may end inside a character
    let text = '';
    this.#readOn(slot, length, piece => { text += pieces.decode(piece, { stream: true }); });
    return text + pieces.decode();
  }

  /**
   * Answers a line with the bytes of its reply.
   * @param {number} slot
   * @param {Uint8Array} line
   * @returns {Uint8Array}
   */
  bytes(slot, line) {
    const length = this.#answer(slot, line);
    if (length <= this.#output.size) return this.#front(length).slice();
    const reply = new Uint8Array(length);
    this.#readOn(slot, length, (piece, from) => { reply.set(piece, from); });
    return reply;
  }

  /**
   * Has a line answered, with the front of the reply in the output: how many bytes the reply has.
   * @param {number} slot
   * @param {string | Uint8Array} line
   * @returns {number}
   */
  #answer(slot, line) {
    if (line.length > LONGEST) throw failure(LONG); // a code unit of a string takes at least one byte, and at most three
    if (typeof line === 'string' && 3 * line.length <= this.#input.size) {
      const { at, size } = this.#input;
      const { written } = encoder.encodeInto(line, this.#calls.bytes.subarray(at, at + size));
      return this.#call(slot, at, /** @type {number} */ (written));
    }
    const bytes = typeof line === 'string' ? encoder.encode(line) : line;
    if (bytes.length > LONGEST) throw failure(LONG);
    if (bytes.length > KEPT) return this.#answerOnce(slot, bytes);
    this.#grow(this.#input, bytes.length);
    return this.#put(slot, this.#input.at, bytes);
  }

  /**
   * The same for a line that is too long for the buffer: its memory is given back.
   * @param {number} slot
   * @param {Uint8Array} bytes
   */
  #answerOnce(slot, bytes) {
    const at = this.#calls.take(bytes.length);
    try {
      return this.#put(slot, at, bytes);
    } finally {
      this.#calls.give(at);
    }
  }

  /**
   * @param {number} slot
   * @param {number} at
   * @param {Uint8Array} bytes
   */
  #put(slot, at, bytes) {
    this.#calls.bytes.set(bytes, at);
    return this.#call(slot, at, bytes.length);
  }

  /**
   * @param {number} slot
   * @param {number} at
   * @param {number} size
   */
  #call(slot, at, size) {
    const told = this.#calls.call('lx_live_line', slot, at, size, this.#output.at, this.#output.size, this.#length);
    if (told !== DONE) throw failure(told);
    return new DataView(this.#calls.bytes.buffer).getUint32(this.#length, true);
  }

  /**
   * Passes on a reply that is longer than the output, in pieces. Each stands in the memory until the next call.
   * @param {number} slot
   * @param {number} length
   * @param {(piece: Uint8Array, from: number) => void} pass
   */
  #readOn(slot, length, pass) {
    let had = this.#output.size;
    pass(this.#front(had), 0);
    this.#growIfPossible(this.#output, Math.min(length, KEPT));
    while (had < length) {
      const told = this.#calls.call('lx_live_reply', slot, had, this.#output.at, this.#output.size, this.#length);
      if (told !== DONE) throw failure(told);
      const count = Math.min(length - had, this.#output.size);
      pass(this.#front(count), had);
      had += count;
    }
  }

  /** @param {number} count */
  #front(count) {
    return this.#calls.bytes.subarray(this.#output.at, this.#output.at + count);
  }

  /**
   * @param {number} size
   * @returns {Buffer}
   */
  #buffer(size) {
    return { at: this.#calls.take(size), size };
  }

  /**
   * Has a buffer hold so many bytes. Its sizes are powers of two, so it grows seldom.
   * @param {Buffer} buffer
   * @param {number} least
   */
  #grow(buffer, least) {
    if (least <= buffer.size) return;
    const { at, size } = this.#buffer(1 << (32 - Math.clz32(least - 1)));
    this.#calls.give(buffer.at);
    buffer.at = at;
    buffer.size = size;
  }

  /**
   * The same if there is memory for it; otherwise the buffer stays as it is.
   * @param {Buffer} buffer
   * @param {number} least
   */
  #growIfPossible(buffer, least) {
    try {
      this.#grow(buffer, least);
    } catch (error) {
      if (!(error instanceof LexicalError) || error.code !== 'memory') throw error;
    }
  }
}

function newDecoder() {
  return new TextDecoder('utf-8', { ignoreBOM: true });
}
