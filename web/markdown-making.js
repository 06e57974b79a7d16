// What is made of a Markdown text: nodes within the limits of a document, and what was lost on the way.
import { ContentError } from './content-error.js';

/** @typedef {import('./replies.js').DocumentNode} DocumentNode */

const NODES = 16_384; // of a document, with the root
const CHARACTERS = 1_048_576; // of all its strings

/** The nodes of a document, counted as they are made. */
export class Making {
  /** @type {Set<string>} */
  #lost = new Set();
  #nodes = 1;
  #characters = 0;

  /** @param {boolean} leavesBars whether the parser leaves `\|` in code in a cell */
  constructor(leavesBars) {
    this.leavesBars = leavesBars;
  }

  get lost() {
    return [...this.#lost];
  }

  /**
   * Tells what the document has no place for, once.
   * @param {string} what
   */
  lose(what) {
    this.#lost.add(what);
  }

  /**
   * Counts a node and its text.
   * @param {DocumentNode} node
   * @param {string} [text]
   * @returns {DocumentNode}
   */
  node(node, text = '') {
    this.#nodes += 1;
    if (this.#nodes > NODES) throw new ContentError('size', `the text makes more than ${NODES} nodes`);
    this.count(text);
    return node;
  }

  /** @param {string} text */
  count(text) {
    this.#characters += text.length - (text.match(/[\ud800-\udbff][\udc00-\udfff]/g)?.length ?? 0);
    if (this.#characters > CHARACTERS) throw new ContentError('size', `it has more than ${CHARACTERS} characters`);
  }

  /**
   * An element without a direction.
   * @param {string} type
   * @param {DocumentNode[]} children
   * @param {object} [members]
   * @returns {DocumentNode}
   */
  element(type, children, members = {}) {
    const node = { type, children, direction: null, format: '', indent: 0, version: 1, ...members };
    return this.node(/** @type {DocumentNode} */ (node));
  }
}
