// Nodes of a slice as the core writes them, and what the core takes of them.
import { ContentError } from './content-error.js';

/** @typedef {import('./replies.js').DocumentNode} DocumentNode */
/** @typedef {Record<string, any> & { type: string, children: Node[] }} Element */
/** @typedef {Record<string, any> & { type: string, children?: Node[] }} Node */

/** Levels below the root. */
export const DEEPEST = 48;
const MOST_NODES = 16_382; // beside the root, and the paragraph that is pasted into
const MOST_CHARACTERS = 1_048_576;
/** What a list may start with. */
export const MOST_START = 1_000_000;

/**
 * @param {string} type
 * @param {Record<string, unknown>} [members]
 * @returns {Element}
 */
export function element(type, members = {}) {
  const own = type === 'paragraph' ? { textFormat: 0, textStyle: '' } : {};
  return { type, children: [], direction: null, format: '', indent: 0, ...own, version: 1, ...members };
}

/**
 * @param {string} text
 * @param {number} format
 * @returns {Node}
 */
export function textNode(text, format) {
  return { type: 'text', text, format, style: '', detail: 0, mode: 'normal', version: 1 };
}

/**
 * @param {number} format
 * @returns {Node}
 */
export function tabNode(format) {
  return { type: 'tab', text: '\t', format, style: '', detail: 2, mode: 'normal', version: 1 };
}

/** @returns {Node} */
export const breakNode = () => ({ type: 'linebreak', version: 1 });

/**
 * What a list says of itself.
 * @param {boolean} isNumbered
 * @param {number} start
 */
export function listMembers(isNumbered, start) {
  if (!isNumbered) return { listType: 'bullet', start: 1, tag: 'ul' };
  return { listType: 'number', start: Math.min(start, MOST_START), tag: 'ol' };
}

const inlineTypes = new Set(['text', 'tab', 'linebreak', 'link', 'embed']);

/** @param {{ type: string }} node */
export const isInline = ({ type }) => inlineTypes.has(type);

/** Counts what a slice is made of, and stops where the core would. */
export class Budget {
  #nodes = 0;
  #characters = 0;

  /** @param {number} nodes */
  takeNodes(nodes) {
    this.#nodes += nodes;
    if (this.#nodes > MOST_NODES) throw new ContentError('size', `the HTML has more than ${MOST_NODES} nodes`);
  }

  /** @param {string} text */
  takeText(text) {
    this.#characters += text.length;
    if (text.length > 1 && this.#characters > MOST_CHARACTERS / 2) this.#characters -= pairsIn(text);
    if (this.#characters > MOST_CHARACTERS) {
      throw new ContentError('size', `the HTML has more than ${MOST_CHARACTERS} characters`);
    }
  }
}

/**
 * How many characters of a text are surrogate pairs, which the core counts as one.
 * @param {string} text
 */
function pairsIn(text) {
  let pairs = 0;
  for (let at = 0; at < text.length; at += 1) if ((text.codePointAt(at) ?? 0) > 0xffff) pairs += 1;
  return pairs;
}

/**
 * A text without halves of surrogate pairs, which the core refuses.
 * @param {string} text
 */
export const wellFormed = text => text.replace(/\p{Surrogate}/gu, '\ufffd');
