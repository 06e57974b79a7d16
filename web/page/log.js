// Documents as logs of lines in a store of strings, such as a browser's localStorage. A log is kept in pieces, so that
// a line that is added writes one piece anew and not the whole. Beside it stand when it changed last, its title, and
// which tab holds it: no two tabs write one log.

/** @typedef {import('../lines.js').Line} Line */
/** @typedef {Pick<Storage, 'getItem' | 'setItem' | 'removeItem' | 'key' | 'length'>} Store */

const PREFIX = 'vaultsatin';
const PIECE = 16_384; // characters after which a piece takes no further line
const HELD = 90_000; // milliseconds that a tab holds a log for: browsers wake tabs in the background once a minute

/** @param {(string | number)[]} words */
const keyOf = (...words) => [PREFIX, ...words].join('/');

/**
 * @param {Store} store
 * @param {string} key
 */
function valueOf(store, key) {
  try {
    return JSON.parse(store.getItem(key) ?? 'null');
  } catch {
    return null; // written by something else
  }
}

/**
 * The documents in a store, the one that changed last first.
 * @param {Store} store
 * @returns {{ id: string, at: number, title: string }[]}
 */
export function documentsIn(store) {
  const keys = Array.from({ length: store.length }, (_, index) => (store.key(index) ?? '').split('/'));
  const ids = keys.filter(words => words.length === 2 && words[0] === PREFIX).map(([, id]) => id);
  return ids.map(id => ({ at: 0, title: '', ...valueOf(store, keyOf(id)), id })).sort((a, b) => b.at - a.at);
}

/** The log of one document, as one tab sees it. */
export class Log {
  #store;
  #tab;
  #now;
  /** The lines as JSON, each with a line end. */
  #pieces;
  #head;

  /**
   * @param {Store} store
   * @param {string} id
   * @param {string} tab a name that no other tab has
   * @param {() => number} [now]
   */
  constructor(store, id, tab, now = Date.now) {
    this.id = id;
    this.#store = store;
    this.#tab = tab;
    this.#now = now;
    this.#head = valueOf(store, keyOf(id)) ?? { at: 0, generation: 0, title: '', isAnew: false };
    /** @type {string[]} */
    this.#pieces = [];
    for (let piece; (piece = store.getItem(this.#pieceKey(this.#pieces.length))) !== null;) this.#pieces.push(piece);
  }

  /** @returns {Line[]} */
  get lines() {
    return this.#pieces.join('').split('\n').flatMap(text => {
      try {
        return [JSON.parse(text)];
      } catch {
        return []; // behind the last line end, or something else has written here
      }
    });
  }

  /** How many characters it has. */
  get size() {
    return this.#pieces.reduce((sum, piece) => sum + piece.length, 0);
  }

  /** Whether it has begun anew, and no line has been added since. */
  get isAnew() {
    return this.#head.isAnew;
  }

  /** Whether this tab may add to it: no other one holds it, nor has changed it meanwhile. */
  get isOurs() {
    const head = valueOf(this.#store, keyOf(this.id));
    return !this.isHeldElsewhere && (head === null || JSON.stringify(head) === JSON.stringify(this.#head));
  }

  /** Whether another tab holds it. */
  get isHeldElsewhere() {
    const held = valueOf(this.#store, keyOf(this.id, 'held'));
    return held !== null && held.tab !== this.#tab && held.until > this.#now();
  }

  /** Says that this tab holds it, for a while. */
  hold() {
    this.#store.setItem(keyOf(this.id, 'held'), JSON.stringify({ tab: this.#tab, until: this.#now() + HELD }));
  }

  /** Leaves it to other tabs. */
  release() {
    if (!this.isHeldElsewhere) this.#store.removeItem(keyOf(this.id, 'held'));
  }

  /**
   * Adds lines at the end. Where the store has no room for them, it throws, and has what it had.
   * @param {readonly Line[]} lines
   * @param {string} title
   */
  append(lines, title) {
    const texts = lines.map(line => `${JSON.stringify(line)}\n`);
    const isFull = (this.#pieces.at(-1) ?? '').length >= PIECE;
    const at = isFull ? this.#pieces.length : Math.max(0, this.#pieces.length - 1);
    const added = inPieces([this.#pieces[at] ?? '', ...texts]);
    try {
      added.forEach((piece, index) => this.#store.setItem(this.#pieceKey(at + index), piece));
    } catch (error) {
      added.forEach((_, index) => this.#store.removeItem(this.#pieceKey(at + index)));
      if (!isFull && this.#pieces.length > 0) this.#store.setItem(this.#pieceKey(at), this.#pieces[at]);
      throw error;
    }
    this.#pieces.splice(at, 1, ...added);
    this.#head = { ...this.#head, isAnew: false }; // whoever goes on with it knows
    this.#writeHead(title);
  }

  /**
   * Puts other lines in the place of all. Where the store has no room for them, it throws, and nothing has changed.
   * @param {readonly Line[]} lines
   * @param {string} title
   * @param {boolean} [isAnew]
   */
  begin(lines, title, isAnew = false) {
    const [head, pieces] = [this.#head, this.#pieces];
    const made = inPieces(lines.map(line => `${JSON.stringify(line)}\n`));
    const generation = head.generation + 1;
    try {
      this.#write(generation, made);
    } catch {
      this.#remove(generation, made); // together there is no room for them
      this.#remove(head.generation, pieces);
      try {
        this.#write(generation, made);
      } catch (error) {
        this.#remove(generation, made);
        this.#write(head.generation, pieces);
        throw error;
      }
    }
    this.#head = { ...head, generation, isAnew };
    this.#pieces = made;
    this.#writeHead(title); // from here on the new ones count
    this.#remove(head.generation, pieces);
  }

  /**
   * A document of its own with the same lines, which this tab holds.
   * @param {string} id
   * @param {string} title
   */
  copy(id, title) {
    const copy = new Log(this.#store, id, this.#tab, this.#now);
    copy.begin(this.lines, title, this.isAnew);
    copy.hold();
    return copy;
  }

  /** Nothing of it is kept any longer. */
  remove() {
    this.#remove(this.#head.generation, this.#pieces);
    this.#pieces = [];
    this.#store.removeItem(keyOf(this.id));
    this.#store.removeItem(keyOf(this.id, 'held'));
  }

  /** @param {string} title */
  #writeHead(title) {
    this.#head = { ...this.#head, at: this.#now(), title };
    this.#store.setItem(keyOf(this.id), JSON.stringify(this.#head));
  }

  /** @param {number} index */
  #pieceKey(index, generation = this.#head.generation) {
    return keyOf(this.id, generation, index);
  }

  /**
   * @param {number} generation
   * @param {string[]} pieces
   */
  #write(generation, pieces) {
    pieces.forEach((piece, index) => this.#store.setItem(this.#pieceKey(index, generation), piece));
  }

  /**
   * @param {number} generation
   * @param {string[]} pieces
   */
  #remove(generation, pieces) {
    pieces.forEach((_, index) => this.#store.removeItem(this.#pieceKey(index, generation)));
  }
}

/**
 * Texts joined to pieces; each but the last is at least as long as a piece has to be.
 * @param {string[]} texts
 */
function inPieces(texts) {
  /** @type {string[]} */
  const pieces = [];
  /** @type {string[]} */
  let open = [];
  let length = 0;
  for (const text of texts) {
    open.push(text);
    length += text.length;
    if (length < PIECE) continue;
    pieces.push(open.join(''));
    [open, length] = [[], 0];
  }
  return length > 0 ? [...pieces, open.join('')] : pieces;
}
