// Tables: what cells are headers of, and spans that neither overlap nor leave holes.
import { element } from './html-nodes.js';

/** @typedef {import('./html-nodes.js').Node} Node */
/** @typedef {import('./html-nodes.js').Element} Element */
/** @typedef {import('./html-nodes.js').Budget} Budget */
/** @typedef {{ isHeader: boolean, scope: string, isInHead: boolean }} CellFacts */
/** @typedef {{ from: number, to: number, rows: number }} Taken columns that a cell from above covers in more rows */

const MOST_SPAN = 1000;
const BY_ROW = 1, BY_COLUMN = 2;

/**
 * A span as an attribute says it. For rows, 0 is down to the last.
 * @param {string | undefined} value
 * @param {number} least
 */
export function spanOf(value, least) {
  const number = Number.parseInt(value ?? '', 10);
  if (!(number >= least)) return 1;
  return number === 0 ? MOST_SPAN : Math.min(number, MOST_SPAN);
}

/**
 * Mends a table: false if it has no cell.
 * @param {Element} table
 * @param {Map<Node, CellFacts>} facts
 * @param {Budget} budget
 */
export function mended(table, facts, budget) {
  const rows = /** @type {Element[]} */ (table.children);
  if (rows.every(row => row.children.length === 0)) return false;
  fillHoles(rows, setSpans(rows), budget);
  setHeaders(rows, facts);
  return true;
}

/**
 * @param {Element[]} rows
 * @param {Map<Node, CellFacts>} facts
 */
function setHeaders(rows, facts) {
  /** @param {Node | undefined} cell */
  const isHeader = cell => cell !== undefined && facts.get(cell)?.isHeader === true;
  const filled = rows.filter(row => row.children.length > 0);
  const isHeaderColumn = filled.length > 1 && filled.every(row => isHeader(row.children[0]));
  for (const row of filled) {
    const isHeaderRow = row.children.every(isHeader);
    row.children.forEach((cell, index) => {
      const told = facts.get(cell);
      if (told?.isHeader) cell.headerState = headerOf(told, isHeaderRow, isHeaderColumn && index === 0);
    });
  }
}

/**
 * @param {CellFacts} facts
 * @param {boolean} isHeaderRow
 * @param {boolean} isHeaderColumn
 */
function headerOf({ scope, isInHead }, isHeaderRow, isHeaderColumn) {
  if (scope.startsWith('col')) return BY_ROW;
  if (scope.startsWith('row')) return BY_COLUMN;
  const state = (isHeaderRow || isInHead ? BY_ROW : 0) | (isHeaderColumn ? BY_COLUMN : 0);
  return state === 0 ? BY_ROW : state;
}

/**
 * Makes spans end before columns that another cell covers, and rows end with the table: how many columns it has.
 * @param {Element[]} rows
 */
function setSpans(rows) {
  let width = 0;
  eachRow(rows, (row, taken, at) => {
    let column = 0;
    let next = 0;
    /** @type {Taken[]} */
    const added = [];
    for (const cell of row.children) {
      for (; next < taken.length && taken[next].from <= column; next += 1) column = Math.max(column, taken[next].to);
      const room = next < taken.length ? taken[next].from - column : MOST_SPAN;
      cell.colSpan = Math.min(cell.colSpan, room);
      cell.rowSpan = Math.min(cell.rowSpan, rows.length - at);
      added.push({ from: column, to: column + cell.colSpan, rows: cell.rowSpan });
      column += cell.colSpan;
    }
    for (const { to } of [...added.slice(-1), ...taken.slice(-1)]) width = Math.max(width, to);
    return added;
  });
  return width;
}

/**
 * Puts cells where none is, so that each row is as wide as the table.
 * @param {Element[]} rows
 * @param {number} width
 * @param {Budget} budget
 */
function fillHoles(rows, width, budget) {
  eachRow(rows, (row, taken) => {
    /** @type {Node[]} */
    const cells = [];
    /** @type {Taken[]} */
    const added = [];
    let column = 0;
    let next = 0;
    /** @param {number} to */
    const fillTo = to => {
      while (column < to) {
        for (; next < taken.length && taken[next].from <= column; next += 1) column = Math.max(column, taken[next].to);
        const end = Math.min(to, next < taken.length ? taken[next].from : to, column + MOST_SPAN);
        if (end <= column) continue;
        budget.takeNodes(2);
        cells.push(emptyCell(end - column));
        column = end;
      }
    };
    for (const cell of row.children) {
      for (; next < taken.length && taken[next].from <= column; next += 1) column = Math.max(column, taken[next].to);
      cells.push(cell);
      added.push({ from: column, to: column + cell.colSpan, rows: cell.rowSpan });
      column += cell.colSpan;
    }
    fillTo(width);
    row.children = cells;
    return added;
  });
}

/**
 * Goes through the rows with the columns that cells from above cover, in order.
 * @param {Element[]} rows
 * @param {(row: Element, taken: Taken[], at: number) => Taken[]} visit what the row's own cells cover, in order
 */
function eachRow(rows, visit) {
  /** @type {Taken[]} */
  let taken = [];
  rows.forEach((row, at) => {
    const own = visit(row, taken, at);
    const all = [...taken, ...own].map(({ from, to, rows: left }) => ({ from, to, rows: left - 1 }));
    taken = all.filter(({ rows: left }) => left > 0).sort((one, other) => one.from - other.from);
  });
}

/** @param {number} columns */
function emptyCell(columns) {
  return element('tablecell', { ...cellMembers, colSpan: columns, children: [element('paragraph')] });
}

export const cellMembers = { headerState: 0, colSpan: 1, rowSpan: 1, backgroundColor: null };
