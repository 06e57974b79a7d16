// Selected cells of a table as a slice, which the core has only of ranges, and the steps that put copied cells into
// others.
import { cellOf, edgeOf, indexOf } from '../hosts-order.js';
import { areasOf, cellsIn, tableOf } from './cells.js';
import { isOfCells, isRange } from './ranges.js';
import { sliceOf } from './slices.js';

/** @typedef {import('../hosts.js').Host} Host */
/** @typedef {import('../hosts.js').Hosts} Hosts */
/** @typedef {import('../replies.js').Document} Document */
/** @typedef {import('../replies.js').Slice} Slice */
/** @typedef {import('../lines.js').Selection} Selection */
/** @typedef {import('../lines.js').Step} Step */
/** @typedef {import('./slices.js').Node} Node */

/**
 * A table with the selected cells.
 * @param {Hosts} hosts
 * @param {Document} document what the core has, whose nodes stand as the hosts do
 * @param {Selection} selection
 * @returns {Slice | null}
 */
export function sliceOfCells(hosts, document, selection) {
  /** @type {Map<Host | null, Node>} */
  const rows = new Map();
  for (const cell of cellsIn(hosts, selection)) {
    const before = rows.get(cell.parent)?.children ?? [];
    rows.set(cell.parent, { type: 'tablerow', children: [...before, nodeOf(document, cell)], version: 1 });
  }
  return rows.size === 0 ? null : sliceOf([{ type: 'table', children: [...rows.values()], version: 1 }]);
}

/**
 * @param {Document} document
 * @param {Host} host
 * @returns {Node}
 */
function nodeOf(document, host) {
  const way = [];
  for (let at = host; at.parent !== null; at = at.parent) way.push(indexOf(at));
  return way.reduceRight((node, index) => node.children[index], /** @type {any} */ (document.root));
}

/**
 * The steps that put the cells of a table into those of the table with the caret, from its cell on. Null where what is
 * pasted isn't one table, or has no room there.
 * @param {Hosts} hosts
 * @param {Slice} slice
 * @param {Selection} selection
 * @returns {Step[] | null}
 */
export function stepsIntoCells(hosts, { nodes }, selection) {
  const [source] = /** @type {Node[]} */ (nodes);
  const start = firstCell(hosts, selection);
  if (nodes.length !== 1 || source.type !== 'table' || start === null) return null;
  const areas = areasOf(/** @type {Host} */ (tableOf(start)));
  const from = /** @type {import('./cells.js').Area} */ (areas.find(({ cell }) => cell === start));
  const steps = areasOf(/** @type {any} */ (spansOf(source))).map(({ cell, top, left }) => {
    const target = areas.find(area => area.top === from.top + top && area.left === from.left + left);
    return target ? filled(target.cell, /** @type {any} */ (cell).node) : null;
  });
  return steps.includes(null) ? null : steps.flatMap(each => each ?? []);
}

/**
 * The first of the selected cells, or the one around a range.
 * @param {Hosts} hosts
 * @param {Selection} selection
 * @returns {Host | null}
 */
function firstCell(hosts, selection) {
  if (isOfCells(selection)) return cellsIn(hosts, selection)[0] ?? null;
  if (!isRange(selection)) return null;
  const [anchor, focus] = [selection.anchor[0], selection.focus[0]].map(key => cellOf(hosts.ofKey(key) ?? null));
  return anchor === focus ? anchor : null;
}

/**
 * As much of a table in a slice as its grid is told by.
 * @param {Node} table
 */
function spansOf(table) {
  const cell = (/** @type {Node} */ node) => ({
    node,
    attributes: new Map([['rowspan', node.rowSpan ?? 1], ['colspan', node.colSpan ?? 1]]),
  });
  return { children: table.children?.map(row => ({ children: row.children?.map(cell) ?? [] })) ?? [] };
}

/**
 * The steps after which a cell has what another one has.
 * @param {Host} target
 * @param {Node} source
 * @returns {Step[]}
 */
function filled({ key, children }, source) {
  const name = `in ${key}`, start = /** @type {import('../lines.js').Point} */ ([name, 0, 'element']);
  return [
    { new: 'paragraph', as: name },
    { put: name, into: key, at: 0 },
    ...children.map(child => ({ remove: child.key })),
    { select: { anchor: start, focus: start } },
    { do: 'paste', payload: JSON.stringify(sliceOf(source.children ?? [])) },
  ];
}
