// Cells of a table: those that are selected, what they lose, and the next one.
import { cellOf, edgeOf, indexOf, isBefore, isBlock, isCell, isList, nearest } from '../hosts-order.js';
import { below, blockAt, caretAt, isAtStart, isCaret, isOfCells, isRange, parentOf } from './ranges.js';

/** @typedef {import('../hosts.js').Host} Host */
/** @typedef {import('../hosts.js').Hosts} Hosts */
/** @typedef {import('../lines.js').Point} Point */
/** @typedef {import('../lines.js').Step} Step */
/** @typedef {import('../lines.js').Selection} Selection */
/** @typedef {{ top: number, left: number, bottom: number, right: number }} Rectangle first and last rows and columns */
/** @typedef {Rectangle & { cell: Host }} Area a cell, and where it stands */

/**
 * The table around a host, or null.
 * @type {(host: Host | null) => Host | null}
 */
export const tableOf = host => nearest(host, ({ tag }) => tag === 'table');

/**
 * Where each cell of a table stands, in document order. docs/TABLES.md says how the grid is filled.
 * @param {Host} table
 * @returns {Area[]}
 */
export function areasOf(table) {
  /** @type {Area[]} */
  const areas = [];
  const rows = table.children, taken = rows.map(() => /** @type {boolean[]} */ ([]));
  rows.forEach((row, top) => {
    for (const cell of row.children) {
      const span = (/** @type {string} */ name) => Number(cell.attributes.get(name) ?? 1);
      const width = span('colspan'), bottom = Math.min(top + span('rowspan'), rows.length) - 1;
      let left = 0;
      while (taken[top].slice(left, left + width).some(Boolean)) left += 1;
      for (let at = top; at <= bottom; at += 1) for (let of = left; of < left + width; of += 1) taken[at][of] = true;
      areas.push({ cell, top, left, bottom, right: left + width - 1 });
    }
  });
  return areas;
}

/**
 * The cells that are selected: those of the least rectangle that crosses no cell.
 * @param {Hosts} hosts
 * @param {Selection} selection
 * @returns {Host[]}
 */
export function cellsIn(hosts, selection) {
  const table = isOfCells(selection) ? hosts.ofKey(selection.table) : undefined;
  if (!table || !isOfCells(selection)) return [];
  const areas = areasOf(table);
  let inside = areas.filter(({ cell }) => cell.key === selection.anchor || cell.key === selection.focus);
  for (let count = 0; inside.length !== count;) { // it grows until no cell stands across its edge
    count = inside.length;
    const around = rectangleOf(inside);
    inside = areas.filter(area => meets(area, around));
  }
  return inside.map(({ cell }) => cell);
}

/** @type {(areas: Area[]) => Rectangle} */
const rectangleOf = areas => ({
  top: Math.min(...areas.map(({ top }) => top)),
  left: Math.min(...areas.map(({ left }) => left)),
  bottom: Math.max(...areas.map(({ bottom }) => bottom)),
  right: Math.max(...areas.map(({ right }) => right)),
});

/** @type {(one: Rectangle, other: Rectangle) => boolean} */
const meets = (one, other) => one.top <= other.bottom && other.top <= one.bottom &&
  one.left <= other.right && other.left <= one.right;

/**
 * The steps that empty cells, or the whole document, and put the caret into the first.
 * @param {Host[]} cells
 * @returns {Step[]}
 */
export function emptied(cells) {
  const made = cells.flatMap((cell, index) => /** @type {Step[]} */ ([
    { new: 'paragraph', as: `cell-${index}` },
    { put: `cell-${index}`, into: cell.key, at: 0 },
  ]));
  const start = /** @type {Point} */ (['cell-0', 0, 'element']);
  const removed = cells.flatMap(cell => cell.children.map(({ key }) => ({ remove: key })));
  return [...made, { select: caretAt(start) }, ...removed];
}

/**
 * The steps that give the texts of cells a format, or take it from them where the first has it.
 * @param {Host[]} cells
 * @param {number} bit
 * @param {(host: Host) => number} formatOf
 * @returns {Step[]}
 */
export function formatted(cells, bit, formatOf) {
  const texts = cells.flatMap(cell => [...below(cell, ({ text }) => text !== null)]);
  const isToClear = texts.length > 0 && (formatOf(texts[0]) & bit) !== 0;
  return texts.map(host => ({
    set: host.key,
    fields: { format: isToClear ? formatOf(host) & ~bit : formatOf(host) | bit },
  }));
}

/**
 * The cell that Tab goes to from another one, or Shift and Tab; undefined where there is none.
 * @param {Host} cell
 * @param {boolean} isBack
 * @returns {Host | undefined}
 */
export function nextCell(cell, isBack) {
  const cells = [...below(/** @type {Host} */ (tableOf(cell)), isCell)];
  return cells[cells.indexOf(cell) + (isBack ? -1 : 1)];
}

/**
 * The cell that a selection is in, or that it ends in.
 * @param {Hosts} hosts
 * @param {Selection} selection
 */
export function cellAt(hosts, selection) {
  const key = isRange(selection) ? selection.focus[0] : isOfCells(selection) ? selection.focus : null;
  return key === null ? null : cellOf(hosts.ofKey(key) ?? null);
}

/**
 * The steps that remove a table. The caret goes in front of what is behind it, or behind what is before it.
 * @param {Host} table
 * @returns {Step[]}
 */
export function tableRemoved(table) {
  const { children } = parentOf(table), at = indexOf(table);
  const next = children[at + 1], before = children[at - 1];
  const point = next ? edgeOf(next, true) : before ? edgeOf(before, false) : null;
  return [{ select: point && caretAt(point) }, { remove: table.key }];
}

/**
 * The steps by which Backspace right behind a table, or Delete right before one, goes into it; null elsewhere.
 * Nothing can be joined with a table, and none goes unawares. An empty block goes if another one is on its other side.
 * @param {Hosts} hosts
 * @param {Selection} selection
 * @param {boolean} isBack
 * @returns {Step[] | null}
 */
export function intoTable(hosts, selection, isBack) {
  if (!isCaret(selection)) return null;
  const { anchor } = selection, block = blockAt(hosts, anchor);
  if (block === null) return null;
  const isAtEnd = () => !isBefore(hosts, anchor, edgeOf(block, false));
  if (isBack ? !isAtStart(hosts, anchor, block) : !isAtEnd()) return null;
  const { children } = parentOf(block), at = indexOf(block), step = isBack ? -1 : 1;
  const table = children[at + step], other = children[at - step];
  if (table?.tag !== 'table') return null;
  const isNeedless = block.children.length === 0 && other !== undefined && (isBlock(other) || isList(other));
  const caret = { select: caretAt(edgeOf(table, !isBack, true)) };
  return isNeedless ? [caret, { remove: block.key }] : [caret];
}
