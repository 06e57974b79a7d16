// Where an input event goes: a word that is corrected, or all to the end of a line on the screen.
import { edgeOf, indexOf } from '../hosts-order.js';
import { selectionIn } from '../selection.js';
import { blockAt, parentOf } from './ranges.js';

/** @typedef {import('../hosts.js').Host} Host */
/** @typedef {import('../hosts.js').Hosts} Hosts */
/** @typedef {import('../replies.js').ReplyPoint} ReplyPoint */

/**
 * What the browser means to change, as a step `select` takes it; null where it doesn't say.
 * @param {import('./page.js').AnyPage} page
 * @param {InputEvent} event
 * @returns {import('../lines.js').Selection}
 */
export function targetOf(page, event) {
  const [range] = event.getTargetRanges();
  if (!range) return null;
  const { startContainer, startOffset, endContainer, endOffset } = range;
  return selectionIn(page.view, {
    anchorNode: startContainer, anchorOffset: startOffset, focusNode: endContainer, focusOffset: endOffset,
  });
}

/**
 * From a caret to the end of its paragraph, or to its start; a line break ends it, too. Browsers tell more than that.
 * @param {Hosts} hosts
 * @param {ReplyPoint} caret
 * @param {boolean} isForward
 * @returns {import('../lines.js').Selection}
 */
export function restOfParagraph(hosts, caret, isForward) {
  const block = blockAt(hosts, caret);
  if (block === null) return null;
  const ahead = isForward ? block.children.slice(childAt(hosts, caret, block)) : childrenBefore(hosts, caret, block);
  const lineBreak = ahead.find(({ tag }) => tag === 'br');
  /** @type {ReplyPoint} */
  const focus = lineBreak
    ? [block.key, indexOf(lineBreak) + (isForward ? 0 : 1), 'element']
    : edgeOf(block, !isForward);
  return { anchor: caret, focus };
}

/**
 * The index of the child of a block that a point is in, or before.
 * @param {Hosts} hosts
 * @param {ReplyPoint} point
 * @param {Host} block
 */
function childAt(hosts, [key, offset], block) {
  let child = /** @type {Host} */ (hosts.ofKey(key));
  if (child === block) return offset;
  while (child.parent !== block) child = parentOf(child);
  return indexOf(child);
}

/**
 * The children of a block before a point, the nearest first.
 * @type {(hosts: Hosts, point: ReplyPoint, block: Host) => Host[]}
 */
const childrenBefore = (hosts, point, block) => block.children.slice(0, childAt(hosts, point, block)).reverse();
