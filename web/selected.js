// What a session knows of selections: which one the core has, and whether a person has selected anything else.

/** @typedef {import('./lines.js').Selection} Selection */
/** @typedef {import('./replies.js').ReplySelection} ReplySelection */

export class Selected {
  /**
   * What the core has; undefined where that isn't known.
   * @type {ReplySelection | undefined}
   */
  #told;
  /**
   * What the page shows, as far as it is known: what the core told last, or what came with an act since.
   * @type {Selection | undefined}
   */
  #seen;
  /** How many acts wait with a selection of their own. */
  #waiting = 0;

  /**
   * Whether the selection that comes with a new act is another one than the page showed. While replies are out, it
   * still shows the one from before the acts that wait, and that isn't to be selected again.
   * @param {Selection} selection
   */
  hasMoved(selection) {
    if (selection === null || isSame(selection, this.#seen)) return false;
    this.#seen = selection;
    this.#waiting += 1;
    return true;
  }

  /**
   * Whether the selection of an act whose turn has come is to be sent before its lines.
   * @param {Selection} selection
   * @param {boolean} hasMoved
   */
  isToSend(selection, hasMoved) {
    if (hasMoved) this.#waiting -= 1;
    if (selection === null || this.#told === undefined) return selection !== null;
    return hasMoved && !isSame(selection, this.#told);
  }

  /** Lines are sent that may select something else. */
  forget() {
    this.#told = undefined;
  }

  /**
   * The core tells what is selected.
   * @param {ReplySelection} selection
   */
  learn(selection) {
    this.#told = selection;
    if (this.#waiting === 0) this.#seen = selection;
  }
}

/**
 * Whether two selections are of the same places, and of the same format where the first tells one.
 * @param {NonNullable<Selection>} selection
 * @param {Selection | ReplySelection | undefined} other
 */
function isSame(selection, other) {
  if (!other || (selection.format !== undefined && selection.format !== formatOf(other))) return false;
  return placesOf(selection) === placesOf(other);
}

/** @param {NonNullable<Selection | ReplySelection>} selection */
function formatOf(selection) {
  return 'format' in selection ? selection.format : undefined;
}

/** @param {NonNullable<Selection | ReplySelection>} selection */
function placesOf(selection) {
  const { anchor, focus, keys, table } = /** @type {Record<string, unknown>} */ (selection);
  return JSON.stringify([anchor, focus, keys, table]);
}
