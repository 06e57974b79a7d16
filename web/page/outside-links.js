// What is typed at the edge of a link isn't meant for the link.
import { indexOf } from '../hosts-order.js';
import { linkOf } from './link-lines.js';
import { caretAt, isCaret, parentOf } from './ranges.js';

/** @typedef {import('../hosts.js').Hosts} Hosts */
/** @typedef {import('../lines.js').Point} Point */
/** @typedef {import('../lines.js').Selection} Selection */

/**
 * The place outside of a link for a caret at its start or its end; any other selection is as it was.
 * @param {Hosts} hosts
 * @param {Selection} selection
 * @returns {Selection}
 */
export function outsideLink(hosts, selection) {
  if (!isCaret(selection)) return selection;
  const [key, offset, kind] = selection.anchor, host = hosts.ofKey(key), link = linkOf(host ?? null);
  if (kind !== 'text' || !link) return selection;
  const { children } = link, isAtStart = offset === 0 && host === children[0];
  const isAtEnd = offset === host?.text?.length && host === children[children.length - 1];
  if (!isAtStart && !isAtEnd) return selection;
  const outside = /** @type {Point} */ ([parentOf(link).key, indexOf(link) + (isAtEnd ? 1 : 0), 'element']);
  return { ...selection, ...caretAt(outside) };
}
