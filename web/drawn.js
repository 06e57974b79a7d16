// Which attributes of a host reach a page, and with what values.
import { isSafeAddress, safeStyle } from './safe.js';

/** @typedef {import('./host-node.js').HostNode} HostNode */
/** @typedef {{ schemes: readonly string[], properties: readonly string[] }} Lists */

/** Attributes that are drawn as they are: they look at nothing, and lead nowhere. */
const plain = new Set(['class', 'title', 'value', 'start', 'colspan', 'rowspan', 'dir', 'role']);

/** Words that say what an opened page may do with this one. */
const aboutOpening = /^(?:opener|noopener)$/i;

/**
 * The value of a host's attribute as a page may have it, or null if it may not. What isn't known here is left out, and
 * what is about links is drawn on links alone.
 * @param {HostNode} host
 * @param {string} name
 * @param {Lists} lists
 * @returns {string | null}
 */
export function drawnValue({ tag, attributes }, name, { schemes, properties }) {
  const value = attributes.get(name) ?? null;
  if (name === 'rel') return tag === 'a' ? relOf(value, attributes.has('target')) : null;
  if (value === null || plain.has(name) || /^(?:data|aria)-/.test(name)) return value;
  if (name === 'style') return safeStyle(value, properties) || null;
  if (name === 'href') return tag === 'a' && isSafeAddress(value, schemes) ? value : null;
  return name === 'target' && tag === 'a' ? value : null;
}

/**
 * The attributes that are drawn anew where one of a host has changed: with a `target` goes `rel`.
 * @param {string} name
 */
export function namesAfter(name) {
  return name === 'target' ? ['target', 'rel'] : [name];
}

/**
 * What a link's `rel` is drawn as: a link that may open another page gives it no way back.
 * @param {string | null} rel
 * @param {boolean} mayOpen
 */
function relOf(rel, mayOpen) {
  if (!mayOpen) return rel;
  const words = (rel ?? '').split(/[ \t\n\f\r]+/).filter(word => word !== '' && !aboutOpening.test(word));
  return [...words, 'noopener'].join(' ');
}
