// The formats of texts: which a host shows, by the words of its class.

/** @typedef {import('../hosts.js').Host} Host */

/**
 * Bits of a text's format.
 * @type {Record<string, number>}
 */
export const formatBits = {
  bold: 1,
  italic: 2,
  strikethrough: 4,
  underline: 8,
  code: 16,
  subscript: 32,
  superscript: 64,
  highlight: 128,
};

/**
 * @param {Host} host
 * @returns {number}
 */
export function formatOf({ attributes }) {
  const words = (attributes.get('class') ?? '').split(' ');
  return words.reduce((format, word) => format | (formatBits[word] ?? 0), 0);
}
