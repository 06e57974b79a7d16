// The front of a line whose end hasn't come yet.

/** Bytes that come in pieces. Their room doubles, so a long line in small pieces is copied only a few times over. */
export class Pending {
  #bytes = new Uint8Array(1 << 12);
  #length = 0;

  get length() {
    return this.#length;
  }

  /** @param {Uint8Array} piece */
  add(piece) {
    const length = this.#length + piece.length;
    if (length > this.#bytes.length) {
      const more = new Uint8Array(Math.max(length, 2 * this.#bytes.length));
      more.set(this.#bytes.subarray(0, this.#length));
      this.#bytes = more;
    }
    this.#bytes.set(piece, this.#length);
    this.#length = length;
  }

  /**
   * All bytes, with a last piece if there is one. They stand until the next call; none are left.
   * @param {Uint8Array} [last]
   */
  take(last) {
    if (last) this.add(last);
    const length = this.#length;
    this.#length = 0;
    return this.#bytes.subarray(0, length);
  }
}
