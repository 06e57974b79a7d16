// Headers of a table, as steps: the core has commands for rows, columns and cells.
import { cellAt, tableOf } from './cells.js';

/** @typedef {import('../hosts.js').Host} Host */
/** @typedef {import('./page.js').AnyPage} Page */

/** The bits of a cell's `headerState`. */
const bits = { row: 1, column: 2 };

/**
 * The table with the caret, or with the selected cells.
 * @param {Page} page
 * @returns {Host | null}
 */
export function tableAt(page) {
  const selection = page.selected ?? page.selection;
  return tableOf(cellAt(page.view.hosts, selection));
}

/**
 * The cells of the first row, or those that begin each row.
 * @param {Host} table
 * @param {'row' | 'column'} side
 * @returns {readonly Host[]}
 */
function cellsOf(table, side) {
  const rows = table.children;
  return side === 'row' ? rows[0]?.children ?? [] : rows.flatMap(row => row.children[0] ?? []);
}

/**
 * Whether the first row, or the first column, is one of headers.
 * @param {Host | null} table
 * @param {'row' | 'column'} side
 */
export function hasHeaders(table, side) {
  return table !== null && cellsOf(table, side).every(cell => cell.tag === 'th');
}

/**
 * Steps after which the first row, or the first column, of the table with the caret has headers, or no longer.
 * @param {Page} page
 * @param {'row' | 'column'} side
 */
export function headerSteps(page, side) {
  const table = tableAt(page);
  if (table === null) return [];
  const other = side === 'row' ? 'column' : 'row';
  const isOn = !hasHeaders(table, side), corner = hasHeaders(table, other) ? bits[other] : 0;
  return cellsOf(table, side).map((cell, index) => {
    const kept = index === 0 ? corner : 0; // the corner belongs to the other side too
    return { set: cell.key, fields: { headerState: isOn ? bits[side] | kept : kept } };
  });
}
