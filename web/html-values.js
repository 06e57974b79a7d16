// The members of a document's nodes as they are read: null is as missing, and what is missing has its default.
import { ContentError } from './content-error.js';

/** @typedef {Record<string, unknown>} Values */

/**
 * @param {Values} node
 * @param {string} name
 */
export function stringIn(node, name) {
  const value = node[name] ?? '';
  if (typeof value !== 'string') throw new ContentError('document', `\`${name}\` is no text`);
  return value;
}

/**
 * @param {Values} node
 * @param {string} name
 * @param {number} least
 * @param {number} most
 * @param {number} missing
 */
export function numberIn(node, name, least, most, missing) {
  const value = node[name] ?? missing;
  if (typeof value !== 'number' || !Number.isInteger(value) || value < least || value > most) {
    throw new ContentError('document', `\`${name}\` isn't a whole number from ${least} to ${most}`);
  }
  return value;
}

/**
 * @param {Values} node
 * @param {string} name
 * @param {readonly string[]} words
 * @param {string} missing
 */
export function wordIn(node, name, words, missing) {
  const value = node[name] ?? missing;
  if (value === missing) return missing;
  if (typeof value === 'string' && words.includes(value)) return value;
  throw new ContentError('document', `\`${name}\` is none of its words`);
}
