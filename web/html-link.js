// Links, as they are read and written: with addresses that are safe, and windows that can't reach back.
import { isSafeAddress } from './safe.js';

/** @typedef {import('./html-line.js').Link} Link */

/**
 * The link that an `a` is, if it is one.
 * @param {ReadonlyMap<string, string>} attributes
 * @returns {Link | null}
 */
export function linkOf(attributes) {
  const url = attributes.get('href')?.trim() ?? '';
  if (url === '' || !isSafeAddress(url)) return null;
  const target = attributes.get('target') || null;
  return { url, rel: relOf(attributes.get('rel') || null, target), target, title: attributes.get('title') || null };
}

/**
 * The relation of a link, so that a window that it opens has no way back to this one.
 * @param {string | null} rel
 * @param {string | null} target
 */
export function relOf(rel, target) {
  const opens = target !== null && !/^_(self|parent|top)$/i.test(target);
  const words = (rel ?? '').split(/\s+/).filter(Boolean);
  if (!opens || words.some(word => /^(noopener|noreferrer)$/i.test(word))) return rel;
  return [...words, 'noopener'].join(' ');
}
