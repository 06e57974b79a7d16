// What a person does with the mouse where the browser does nothing, or something that nobody means.
import { isPlaceBeside, placeAt } from './places.js';
import { blockAt, isRange, textsIn } from './ranges.js';

/** @typedef {import('./page.js').AnyPage} Page */

/** @param {Page} page */
export function listenToMouse(page) {
  const { element } = page.view;
  element.addEventListener('mousedown', event => {
    if (itemOfMark(page, event)) event.preventDefault(); // the caret stays where it is
  });
  element.addEventListener('click', event => clicked(page, event));
  element.addEventListener('dblclick', () => {
    if (isBreakAlone(page)) element.ownerDocument.getSelection()?.collapseToStart();
  });
  element.ownerDocument.addEventListener('mousedown', event => {
    if (event.button === 0 && !event.defaultPrevented && isPlaceBeside(page, event)) putBeside(page, event);
  });
}

/**
 * The item whose check mark is clicked, or null: the mark stands beside the item.
 * @param {Page} page
 * @param {MouseEvent} event
 */
function itemOfMark(page, { target, offsetX }) {
  if (!(target instanceof Element) || target.role !== 'checkbox') return null;
  return offsetX >= 0 && offsetX < target.clientWidth ? null : page.view.hostAround(target);
}

/**
 * @param {Page} page
 * @param {MouseEvent} event
 */
function clicked(page, event) {
  const { target } = event, link = target instanceof Element ? target.closest('a') : null;
  const item = itemOfMark(page, event);
  if (link) {
    event.preventDefault();
    if (link.href && (event.ctrlKey || event.metaKey)) window.open(link.href, '_blank', 'noopener');
  } else if (item) {
    const checked = item.attributes.get('aria-checked') !== 'true';
    page.act({ update: [{ set: item.key, fields: { checked } }] }, null);
  }
}

/**
 * Whether nothing is selected but the end of a block: so it is after a double click behind the last word of a line. A
 * letter would join the block with the next one.
 * @param {Page} page
 */
function isBreakAlone({ selected, view: { hosts } }) {
  if (!isRange(selected) || blockAt(hosts, selected.anchor) === blockAt(hosts, selected.focus)) return false;
  return textsIn(hosts, selected).length === 0;
}

/**
 * A click beside the document puts the caret into the line next to it, rather than taking the focus away.
 * @param {Page} page
 * @param {MouseEvent} event
 */
function putBeside(page, event) {
  event.preventDefault();
  const place = placeAt(page.view, event.clientX, event.clientY);
  const browser = page.view.element.ownerDocument.getSelection();
  page.view.element.focus({ preventScroll: true });
  if (place === null || browser === null) return;
  if (event.shiftKey && browser.rangeCount > 0) browser.extend(...place);
  else browser.collapse(...place);
}
