// What a person means who selects more than the text they see marked: whole blocks, lines to their ends, cells.
import { blockOf, cellOf, edgeOf, indexOf, isBefore, isBlock, isCell, isList, nearest } from './hosts-order.js';

/** @typedef {import('./hosts.js').Host} Host */
/** @typedef {import('./hosts.js').Hosts} Hosts */
/** @typedef {import('./lines.js').Selection} Selection */
/** @typedef {import('./replies.js').ReplyPoint} ReplyPoint */

/**
 * The selection that is meant from one point of the tree to another.
 * @param {Hosts} hosts
 * @param {ReplyPoint} anchor
 * @param {ReplyPoint} focus
 * @returns {Selection}
 */
export function meant(hosts, anchor, focus) {
  const isBackward = isBefore(hosts, focus, anchor);
  if (!isBackward && !isBefore(hosts, anchor, focus)) return { anchor, focus };
  const [first, last] = isBackward ? [focus, anchor] : [anchor, focus];
  const [start, open] = contents(hosts, first, last);
  const end = endBeforeBlock(hosts, start, open) ?? open;
  const cells = cellsBetween(hosts, start, end);
  if (cells === null) return isBackward ? { anchor: end, focus: start } : { anchor: start, focus: end };
  const [from, to] = isBackward ? [cells.end, cells.start] : [cells.start, cells.end];
  return { anchor: from.key, focus: to.key, table: cells.table.key };
}

/**
 * @param {Hosts} hosts
 * @param {ReplyPoint} point
 */
function hostOf(hosts, [key]) {
  return /** @type {Host} */ (hosts.ofKey(key)); // the point is one of this tree
}

// ---- from before a block to behind it

/**
 * The two points, each brought into the nearest block that is between them. They stay where there is none.
 * @param {Hosts} hosts
 * @param {ReplyPoint} first
 * @param {ReplyPoint} last
 * @returns {[ReplyPoint, ReplyPoint]}
 */
function contents(hosts, first, last) {
  const start = inward(hosts, first, true), end = inward(hosts, last, false);
  return isBefore(hosts, end, start) ? [first, last] : [start, end];
}

/**
 * The edge of the nearest block behind a point, or before it, for a point that is between blocks. It goes into lists
 * and out of them, but neither into tables nor out of cells.
 * @param {Hosts} hosts
 * @param {ReplyPoint} point
 * @param {boolean} isStart
 * @returns {ReplyPoint}
 */
function inward(hosts, point, isStart) {
  if (point[2] === 'text') return point;
  let host = hostOf(hosts, point), [, offset] = point;
  for (let hasLeft = false; ; hasLeft = true) {
    const child = host.children[isStart ? offset : offset - 1];
    if (child !== undefined && (isBlock(child) || isList(child))) return edgeOf(child, isStart);
    // Where a list ends an item, what is behind the list is behind the item.
    const isLeft = child === undefined && (isList(host) || (hasLeft && host.tag === 'li'));
    if (!isLeft || host.parent === null) return [host.key, offset, 'element'];
    offset = indexOf(host) + (isStart ? 1 : 0);
    host = host.parent;
  }
}

// ---- up to the start of the next block

/**
 * Where a selection ends that reaches to the very start of a block, as by a triple click: at the end of what is before.
 * Null where it doesn't, or where nothing before that is selected.
 * @param {Hosts} hosts
 * @param {ReplyPoint} start
 * @param {ReplyPoint} end
 * @returns {ReplyPoint | null}
 */
function endBeforeBlock(hosts, start, end) {
  const first = blockOf(hostOf(hosts, start)), last = blockOf(hostOf(hosts, end));
  if (first === null || last === null || first === last || !isAtStart(hosts, end, last)) return null;
  const isWithinFrame = cellOf(first) === cellOf(last);
  const before = lastBefore(last, !isWithinFrame);
  if (before === null || !isBefore(hosts, start, before)) return null;
  if (isWithinFrame) return before;
  const isWholeBlock = isAtStart(hosts, start, first) && String(before) === String(edgeOf(first, false));
  return isWholeBlock ? before : null; // out of a cell only a triple click is meant so
}

/**
 * Whether nothing of a block is before a point in it.
 * @param {Hosts} hosts
 * @param {ReplyPoint} point
 * @param {Host} block
 */
function isAtStart(hosts, point, block) {
  if (point[1] !== 0) return false;
  for (let at = hostOf(hosts, point); at !== block; at = /** @type {Host} */ (at.parent)) {
    if (indexOf(at) !== 0) return false;
  }
  return true;
}

/**
 * The last point in what is before a host, or null where nothing is.
 * @param {Host} host
 * @param {boolean} withTables
 */
function lastBefore(host, withTables) {
  const at = nearest(host, one => one.parent === null || indexOf(one) > 0);
  if (at === null || at.parent === null) return null;
  return edgeOf(at.parent.children[indexOf(at) - 1], false, withTables);
}

// ---- cells

/**
 * The cell next to a point that is between cells or rows, the one behind the start or before the end. Null for points
 * elsewhere.
 * @param {Hosts} hosts
 * @param {ReplyPoint} point
 * @param {boolean} isStart
 * @returns {Host | null}
 */
function cellBeside(hosts, point, isStart) {
  let host = hostOf(hosts, point), [, offset] = point;
  if (host.tag !== 'table' && host.tag !== 'tr') return null;
  while (!isCell(host)) {
    const child = host.children[isStart ? offset : offset - 1];
    if (child === undefined) return null;
    host = child;
    offset = isStart ? 0 : host.children.length;
  }
  return host;
}

/**
 * Each table around a host, with the cell of it in which the host is. The nearest is first.
 * @param {Host | null} host
 */
function cellsAround(host) {
  /** @type {Map<Host, Host>} */
  const cells = new Map();
  for (let cell = cellOf(host); cell !== null; cell = cellOf(cell.parent)) {
    const table = nearest(cell, ({ tag }) => tag === 'table');
    if (table !== null) cells.set(table, cell);
  }
  return cells;
}

/**
 * The cells of one table in which two points are; null where that is one cell, unless both points are between cells.
 * @param {Hosts} hosts
 * @param {ReplyPoint} start
 * @param {ReplyPoint} end
 * @returns {{ start: Host, end: Host, table: Host } | null}
 */
function cellsBetween(hosts, start, end) {
  const first = cellBeside(hosts, start, true), last = cellBeside(hosts, end, false);
  const others = cellsAround(last ?? hostOf(hosts, end));
  for (const [table, cell] of cellsAround(first ?? hostOf(hosts, start))) {
    const other = others.get(table);
    if (other === undefined) continue;
    if (other !== cell || (first === cell && last === cell)) return { start: cell, end: other, table };
    return null; // below this table they are in one cell
  }
  return null;
}
