// Up and Down where a browser goes astray. From cell to cell it follows the order of the document, so that Up would go
// to the cell before; and it stops beside tables and rules, where nothing can be typed.
import { cellOf, edgeOf, indexOf, isCell } from '../hosts-order.js';
import { placeOf } from '../selection.js';
import { areasOf, tableOf } from './cells.js';
import { bringInSight, placeOfCaret } from './in-sight.js';
import { placeUnder } from './places.js';
import { blockAt, isOfCells, isRange, parentOf } from './ranges.js';

/** @typedef {import('./page.js').AnyPage} Page */
/** @typedef {import('../hosts.js').Host} Host */
/** @typedef {import('../dom.js').View} View */
/** @typedef {import('./places.js').Place} Place */
/** @typedef {{ left: number, top: number, bottom: number }} Line where the caret is, in the window */

/** @type {Record<string, boolean>} */
const downward = { ArrowUp: false, ArrowDown: true };

/** @param {Page} page */
export function listenToArrows(page) {
  const { element } = page.view;
  /** @type {number | null} where in its line the caret was as the first of several keys was pressed */
  let column = null;
  let isAtLineEnd = false;
  element.addEventListener('keydown', event => {
    const isDown = downward[event.key], isHeld = event.ctrlKey || event.metaKey || event.altKey;
    if (isDown === undefined || isHeld || event.isComposing || event.defaultPrevented) {
      if (event.key !== 'Shift') [column, isAtLineEnd] = [null, event.key === 'End'];
      return;
    }
    const browser = element.ownerDocument.getSelection(), caret = browser && placeOfFocus(browser, isAtLineEnd);
    if (caret === null) return;
    column ??= caret.left;
    if (!(event.shiftKey ? extend(page, isDown, caret) : move(page, isDown, caret, column))) return;
    event.preventDefault();
    bringInSight(page);
  });
  element.addEventListener('mousedown', () => { [column, isAtLineEnd] = [null, false]; });
}

/**
 * Where the caret is. Where a line is broken by the window it may be in two places: it is at the end of a line behind
 * the key End, and else at the start of the next.
 * @param {globalThis.Selection} browser
 * @param {boolean} isAtLineEnd
 * @returns {Line | null}
 */
function placeOfFocus({ focusNode, focusOffset }, isAtLineEnd) {
  if (focusNode === null) return null;
  if (isAtLineEnd || !(focusNode instanceof Text) || focusOffset === focusNode.data.length) {
    return placeOfCaret({ focusNode, focusOffset });
  }
  const next = document.createRange();
  next.setStart(focusNode, focusOffset);
  next.setEnd(focusNode, focusOffset + 1);
  return next.getClientRects()[0] ?? placeOfCaret({ focusNode, focusOffset });
}

/**
 * With Shift a caret in a cell selects this and the next one; more keys select more. Whether that is done.
 * @param {Page} page
 * @param {boolean} isDown
 * @param {Line} caret
 */
function extend(page, isDown, caret) {
  const { selected, view: { hosts } } = page;
  const keys = isRange(selected) ? [selected.anchor[0], selected.focus[0]]
    : isOfCells(selected) ? [selected.anchor, selected.focus] : [];
  const [anchor, focus] = keys.map(key => cellOf(hosts.ofKey(key) ?? null)), table = focus && tableOf(focus);
  if (!anchor || !focus || !table || tableOf(anchor) !== table) return false;
  if (isRange(selected) && !isOnLastLine(page, selected.focus, isDown, caret)) return false;
  const next = cellBeyond(focus, isDown);
  if (next === null) return isOfCells(selected);
  page.act({ update: [{ select: { anchor: anchor.key, focus: next.key, table: table.key } }] }, null);
  return true;
}

/**
 * Moves the caret if the way goes over the edge of a cell, into a table or over a rule: whether it does.
 * @param {Page} page
 * @param {boolean} isDown
 * @param {Line} caret
 * @param {number} column
 */
function move(page, isDown, caret, column) {
  const { selected, view } = page;
  const block = isRange(selected) ? blockAt(view.hosts, selected.focus) : null;
  if (block === null || !isRange(selected) || !isOnLastLine(page, selected.focus, isDown, caret)) return false;
  const target = targetBeyond(view, block, isDown, column), browser = view.element.ownerDocument.getSelection();
  if (target === null || browser === null) return false;
  const place = placeIn(view, target, isDown, column);
  if (place) browser.collapse(...place);
  return place !== null;
}

/**
 * Whether the caret is on the last line of its block, or on the first on the way up.
 * @param {Page} page
 * @param {import('../replies.js').ReplyPoint} focus
 * @param {boolean} isDown
 * @param {Line} caret
 */
function isOnLastLine({ view }, focus, isDown, caret) {
  const block = blockAt(view.hosts, focus);
  if (block === null) return false;
  const inside = view.element.ownerDocument.createRange();
  inside.selectNodeContents(view.elementOf(block));
  const lines = Array.from(inside.getClientRects()).filter(({ height }) => height > 0);
  const middle = (caret.top + caret.bottom) / 2;
  return lines.every(({ top, bottom }) => isDown ? top < middle : bottom > middle);
}

/**
 * The block or cell that the way up or down from a block leads to, or null where the browser finds it.
 * @param {View} view
 * @param {Host} block
 * @param {boolean} isDown
 * @param {number} column
 * @returns {Host | null}
 */
function targetBeyond(view, block, isDown, column) {
  let isAstray = false;
  for (let at = block; ;) {
    const next = siblingBeyond(at, isDown), cell = cellOf(at);
    if (next === null) {
      const table = tableOf(cell), other = cell && cellBeyond(cell, isDown);
      if (table === null || other !== null) return other;
      at = table;
    } else if (next.tag === 'table') {
      return cellOfEdge(view, next, isDown, column);
    } else if (next.tag === 'hr') {
      at = next;
    } else {
      return isAstray ? next : null;
    }
    isAstray = true;
  }
}

/**
 * What is behind a host, or before it, in its cell or in the document: also behind the lists that it ends.
 * @param {Host} host
 * @param {boolean} isDown
 * @returns {Host | null}
 */
function siblingBeyond(host, isDown) {
  for (let at = host; at.parent !== null && !isCell(at); at = parentOf(at)) {
    const sibling = at.parent.children[indexOf(at) + (isDown ? 1 : -1)];
    if (sibling) return sibling;
  }
  return null;
}

/**
 * The cell below another one, or above it, or null.
 * @param {Host} cell
 * @param {boolean} isDown
 * @returns {Host | null}
 */
function cellBeyond(cell, isDown) {
  const areas = areasOf(/** @type {Host} */ (tableOf(cell)));
  const from = /** @type {import('./cells.js').Area} */ (areas.find(area => area.cell === cell));
  const row = isDown ? from.bottom + 1 : from.top - 1;
  const found = areas.find(({ top, bottom, left, right }) => (
    top <= row && row <= bottom && left <= from.left && from.left <= right
  ));
  return found?.cell ?? null;
}

/**
 * The cell of a table's first row, or its last one, that is nearest to a column of the window.
 * @param {View} view
 * @param {Host} table
 * @param {boolean} isDown
 * @param {number} column
 * @returns {Host}
 */
function cellOfEdge(view, table, isDown, column) {
  const areas = areasOf(table), row = isDown ? 0 : table.children.length - 1;
  const distance = (/** @type {import('./cells.js').Area} */ { cell }) => {
    const { left, right } = view.elementOf(cell).getBoundingClientRect();
    return Math.max(left - column, column - right, 0);
  };
  const cells = areas.filter(({ top, bottom }) => top <= row && row <= bottom);
  return cells.reduce((nearest, each) => distance(each) < distance(nearest) ? each : nearest).cell;
}

/**
 * The place on the first line of a host, or on its last on the way up, that is nearest to a column of the window.
 * @param {View} view
 * @param {Host} host
 * @param {boolean} isDown
 * @param {number} column
 * @returns {Place | null}
 */
function placeIn(view, host, isDown, column) {
  const edge = placeOf(view, edgeOf(host, isDown, true));
  if (edge === null) return null;
  const [focusNode, focusOffset] = edge, element = view.elementOf(host);
  const block = blockAt(view.hosts, edgeOf(host, isDown, true)) ?? host;
  view.elementOf(block).scrollIntoView({ block: 'nearest' });
  const line = placeOfCaret({ focusNode, focusOffset }), { left, right } = element.getBoundingClientRect();
  const place = placeUnder(view, Math.max(left + 1, Math.min(column, right - 1)), (line.top + line.bottom) / 2);
  return place && element.contains(place[0]) ? place : edge;
}
