// What is dragged: a selection moves, or with Ctrl is copied; text from elsewhere is inserted, and files are opened.
import { Hosts } from '../hosts.js';
import { isBefore } from '../hosts-order.js';
import { mapPoint, selectionIn } from '../selection.js';
import { contentOf, insert, put } from './clipboard.js';
import { placeUnder } from './places.js';
import { caretAt, inOrder, isRange } from './ranges.js';

/** @typedef {import('./page.js').AnyPage} AnyPage */
/** @typedef {import('./page.js').Page} Page */
/** @typedef {import('../lines.js').Selection} Selection */
/** @typedef {import('../replies.js').ReplyPoint} ReplyPoint */

/**
 * @param {Page} page
 * @param {{ read(file: File): unknown }} [files] what opens a file that is dropped
 */
export function drop(page, files) {
  const { element } = page.view;
  /** @type {Selection} what is dragged of this page */
  let dragged = null;
  element.addEventListener('dragstart', event => {
    dragged = put(page, event.dataTransfer) ? page.selected : null;
    if (dragged === null) event.preventDefault();
    else if (event.dataTransfer) event.dataTransfer.effectAllowed = 'copyMove';
  });
  element.addEventListener('dragend', () => { dragged = null; });
  element.addEventListener('drop', event => {
    if (hasFiles(event)) return;
    event.preventDefault();
    const at = caretUnder(page, event);
    const content = at && contentOf(page, event.dataTransfer);
    if (!content) return;
    const source = event.ctrlKey || event.altKey ? null : dragged;
    dragged = null;
    const inserted = source === null ? insert(page, content, at) : move(page, content, source, at);
    inserted.then(() => page.focus()); // what came from elsewhere was dropped without a click
  });
  dropFiles(page, files);
}

/**
 * Opens files that are dropped anywhere; the browser would leave the page for them.
 * @param {AnyPage} page
 * @param {{ read(file: File): unknown }} [files]
 */
function dropFiles(page, files) {
  const { ownerDocument } = page.view.element;
  ownerDocument.addEventListener('dragover', event => {
    if (!event.dataTransfer || !hasFiles(event)) return;
    event.preventDefault();
    event.dataTransfer.dropEffect = 'copy';
  });
  ownerDocument.addEventListener('drop', event => {
    if (!hasFiles(event)) return;
    event.preventDefault();
    const [file] = event.dataTransfer?.files ?? [];
    if (!files || !file || file.type.startsWith('image/')) contentOf(page, event.dataTransfer);
    else files.read(file);
  });
}

/** @param {DragEvent} event */
function hasFiles({ dataTransfer }) {
  return dataTransfer !== null && dataTransfer.types.includes('Files');
}

/**
 * The caret where something is dropped; null where that is outside the document.
 * @param {AnyPage} page
 * @param {DragEvent} event
 * @returns {{ anchor: ReplyPoint, focus: ReplyPoint } | null}
 */
function caretUnder({ view }, { clientX, clientY }) {
  const [node, offset] = placeUnder(view, clientX, clientY) ?? [null, 0];
  const places = { anchorNode: node, anchorOffset: offset, focusNode: node, focusOffset: offset };
  return /** @type {any} */ (selectionIn(view, places));
}

/**
 * Cuts what was dragged and inserts it elsewhere: one entry of the history.
 * @param {AnyPage} page
 * @param {NonNullable<ReturnType<typeof contentOf>>} content
 * @param {NonNullable<Selection>} source
 * @param {{ anchor: ReplyPoint }} target
 */
async function move(page, content, source, { anchor: place }) {
  if (isWithin(page, place, source)) return;
  const before = new Hosts();
  before.apply(page.view.hosts.fold());
  const [cut] = await page.act({ dispatch: 'cut' }, source);
  if (!cut?.ops) return;
  const point = mapPoint(before, cut.ops, place);
  if (point === null) {
    await page.act({ dispatch: 'undo' });
    page.notify('That can’t be moved there by dragging. Cut it, and paste it.');
    return;
  }
  await insert(page, content, caretAt(point), ['history-merge']);
}

/**
 * Whether a point is in a range, or at one of its ends.
 * @param {AnyPage} page
 * @param {ReplyPoint} point
 * @param {NonNullable<Selection>} range
 */
function isWithin({ view: { hosts } }, point, range) {
  if (!isRange(range)) return false;
  const [start, end] = inOrder(hosts, range);
  return !isBefore(hosts, point, start) && !isBefore(hosts, end, point);
}
