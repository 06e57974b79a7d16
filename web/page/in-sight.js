// Keeps the caret in sight. A browser scrolls to what it types itself; here it types nothing.
import { all } from './elements.js';
import { follow } from './tools.js';

const ROOM = 24; // pixels that are left between the caret and the edge of what can be seen

/** @param {import('./page.js').AnyPage} page */
export function keepInSight(page) {
  let isWanted = false;
  page.on('told', ({ line, reply }) => {
    if (reply.ops) isWanted = line.dispatch !== 'select-all'; // that leaves the window where it is
  });
  follow(page, () => {
    if (isWanted && !isPartSeen()) scrollTwice(page);
    isWanted = false;
  });
}

/** Whether text is selected, and some of it can be seen: then what was done there can be, too. */
function isPartSeen() {
  const browser = getSelection();
  if (browser === null || browser.isCollapsed || browser.rangeCount === 0) return false;
  const { top, bottom } = browser.getRangeAt(0).getBoundingClientRect();
  return bottom > ROOM && top < document.documentElement.clientHeight - ROOM;
}

/**
 * Scrolls to the caret before the next frame, if it is out of sight.
 * @param {import('./page.js').AnyPage} page
 */
export function bringInSight(page) {
  requestAnimationFrame(() => scrollTwice(page));
}

/**
 * Scrolls to the caret, and once more in the next frame: blocks that came in sight may be higher than was guessed.
 * @param {import('./page.js').AnyPage} page
 */
function scrollTwice(page) {
  if (scrollToCaret(page)) requestAnimationFrame(() => scrollToCaret(page));
}

/**
 * Whether the window had to be scrolled.
 * @param {import('./page.js').AnyPage} page
 */
function scrollToCaret(page) {
  const { focusNode = null, focusOffset = 0 } = getSelection() ?? {};
  if (focusNode === null || !page.view.element.contains(focusNode)) return false;
  const place = placeOfCaret({ focusNode, focusOffset });
  const bar = /** @type {HTMLElement} */ (document.getElementById('bar'));
  const bars = [bar, ...all(bar, '.table-bar')].map(each => each.getBoundingClientRect().bottom);
  const ceiling = Math.max(0, ...bars) + ROOM / 2, floor = document.documentElement.clientHeight - ROOM;
  const tooHigh = place.top - ceiling, tooLow = place.bottom - floor;
  const top = tooHigh < 0 ? tooHigh : tooLow > 0 ? Math.min(tooLow, tooHigh) : 0;
  if (top !== 0) scrollBy({ top });
  return top !== 0;
}

/**
 * The place of the end of a selection that moves. In an empty block it has none of its own: then that is the line's.
 * @param {{ focusNode: Node, focusOffset: number }} selection
 * @returns {DOMRect}
 */
export function placeOfCaret({ focusNode, focusOffset }) {
  const caret = document.createRange();
  caret.setStart(focusNode, focusOffset);
  const place = caret.getBoundingClientRect();
  if (place.height > 0) return place;
  const around = /** @type {Element} */ (focusNode instanceof Element ? focusNode : focusNode.parentElement);
  return (around.children[focusOffset] ?? around.lastElementChild ?? around).getBoundingClientRect();
}
