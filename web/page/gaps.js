// No caret stays between blocks, beside a rule or a table, where a browser draws none: it goes on to the next block.
import { edgeOf } from '../hosts-order.js';
import { placeOf } from '../selection.js';
import { blockAt, isCaret } from './ranges.js';

/** @typedef {import('./page.js').AnyPage} Page */
/** @typedef {import('../hosts.js').Host} Host */
/** @typedef {import('../replies.js').ReplyPoint} ReplyPoint */

const back = new Set(['ArrowLeft', 'ArrowUp', 'Home', 'PageUp']);

/** @param {Page} page */
export function leaveGaps(page) {
  const { element } = page.view, { ownerDocument } = element;
  let isBack = false;
  const leave = () => {
    const point = pointBeyond(page, isBack), place = point && placeOf(page.view, point);
    if (place) ownerDocument.getSelection()?.collapse(...place);
  };
  element.addEventListener('keydown', ({ key }) => {
    leave(); // the browser may not have told yet where the key before has led
    isBack = back.has(key);
  }, true);
  element.addEventListener('mousedown', () => { isBack = false; });
  ownerDocument.addEventListener('selectionchange', leave);
}

/**
 * The nearest point in a block beyond a caret that is in none; null for other carets, and where there is no block.
 * @param {Page} page
 * @param {boolean} isBack
 * @returns {ReplyPoint | null}
 */
function pointBeyond({ selected, view: { hosts } }, isBack) {
  if (!isCaret(selected)) return null;
  const { anchor } = selected, [key, offset, kind] = anchor;
  if (kind === 'text' || blockAt(hosts, anchor) !== null) return null;
  const { children } = /** @type {Host} */ (hosts.ofKey(key));
  const ahead = isBack ? children.slice(0, offset).reverse() : children.slice(offset);
  const next = ahead.find(({ tag }) => tag !== 'hr');
  return next ? edgeOf(next, !isBack, true) : null;
}
