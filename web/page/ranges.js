// What the page asks of a selection in the tree of hosts: in order, within one frame, and the blocks and texts in it.
// The frame of a place is the nearest cell around it, or the document.
import { blockOf, cellOf, edgeOf, indexOf, isBefore, isBlock, nearest } from '../hosts-order.js';

/** @typedef {import('../hosts.js').Host} Host */
/** @typedef {import('../hosts.js').Hosts} Hosts */
/** @typedef {import('../lines.js').Selection} Selection */
/** @typedef {import('../lines.js').Point} Point */
/** @typedef {import('../replies.js').ReplyPoint} ReplyPoint */
/** @typedef {import('../replies.js').ReplySelection} ReplySelection */
/**
 * What the page reads, and what the core tells, has keys; only steps have names too.
 * @typedef {{ anchor: ReplyPoint, focus: ReplyPoint, format?: number }} TextRange
 * @typedef {{ anchor: number, focus: number, table: number }} CellRange
 */

/**
 * @param {Selection | ReplySelection | undefined} selection
 * @returns {selection is TextRange}
 */
export function isRange(selection) {
  return Boolean(selection && 'anchor' in selection && Array.isArray(selection.anchor));
}

/**
 * @param {Selection | ReplySelection | undefined} selection
 * @returns {selection is TextRange}
 */
export function isCaret(selection) {
  return isRange(selection) && selection.anchor.every((part, index) => part === selection.focus[index]);
}

/**
 * @param {Selection | ReplySelection | undefined} selection
 * @returns {selection is CellRange}
 */
export function isOfCells(selection) {
  return Boolean(selection && 'table' in selection && selection.table !== undefined);
}

/**
 * @template {Point} P
 * @param {P} point
 * @returns {{ anchor: P, focus: P }}
 */
export const caretAt = point => ({ anchor: point, focus: point });

/**
 * A selection of a reply, as a step takes it.
 * @param {ReplySelection} selection
 * @returns {Selection}
 */
export function placesOf(selection) {
  switch (selection?.kind) {
    case 'range': return { anchor: selection.anchor, focus: selection.focus };
    case 'cells': return { anchor: selection.anchor, focus: selection.focus, table: selection.table };
    case 'nodes': return { keys: selection.keys };
    default: return null;
  }
}

/**
 * The format of what is selected; none where that is no range.
 * @param {ReplySelection} selection
 */
export const formatIn = selection => selection?.kind === 'range' ? selection.format : 0;

/**
 * The two points of a range in the order of the document.
 * @param {Hosts} hosts
 * @param {TextRange} range
 * @returns {[ReplyPoint, ReplyPoint]}
 */
export function inOrder(hosts, { anchor, focus }) {
  return isBefore(hosts, focus, anchor) ? [focus, anchor] : [anchor, focus];
}

/**
 * The block around a point, or null.
 * @type {(hosts: Hosts, point: ReplyPoint) => Host | null}
 */
export const blockAt = (hosts, [key]) => blockOf(hosts.ofKey(key) ?? null);

/**
 * The host around one that isn't host 0.
 * @param {Host} host
 */
export const parentOf = ({ parent }) => /** @type {Host} */ (parent);

/**
 * Whether a host shows a text, a tab, a link, a line break or an embed.
 * @type {(host: Host) => boolean}
 */
export const isInline = ({ text, tag }) => text !== null || tag === 'a' || tag === 'br' || tag === 'span';

/**
 * Whether a block has a line of its own: an item that holds lists alone hasn't.
 * @type {(block: Host) => boolean}
 */
const isLine = ({ children }) => children.length === 0 || children.some(isInline);

/**
 * Whether nothing of a block is before a point in it.
 * @param {Hosts} hosts
 * @param {ReplyPoint} point
 * @param {Host} block
 */
export function isAtStart(hosts, [key, offset], block) {
  if (offset !== 0) return false;
  /** @type {Host | null} */
  let at = hosts.ofKey(key) ?? null;
  for (; at && at !== block; at = at.parent) if (indexOf(at) !== 0) return false;
  return true;
}

/**
 * All below a host, in order, of which something holds; there it goes no deeper.
 * @param {Host} host
 * @param {(host: Host) => boolean} holds
 * @returns {Generator<Host>}
 */
export function* below(host, holds) {
  for (const child of host.children) {
    if (holds(child)) yield child;
    else yield* below(child, holds);
  }
}

/**
 * The blocks below a host, also those in other blocks: items in items, and blocks in quotes.
 * @param {Host} host
 * @returns {Generator<Host>}
 */
function* blocksBelow(host) {
  for (const child of host.children) {
    if (isBlock(child)) yield child;
    if (!isInline(child)) yield* blocksBelow(child);
  }
}

/**
 * The blocks with a line of their own in what is selected: of a range those of one frame, of cells those in the cells.
 * @param {Hosts} hosts
 * @param {Selection} selection
 * @param {Host[]} [cells] the cells that are selected
 * @returns {Host[]}
 */
export function linesIn(hosts, selection, cells = []) {
  if (!isRange(selection)) return cells.flatMap(cell => [...blocksBelow(cell)]).filter(isLine);
  const [start, end] = inOrder(hosts, selection);
  const first = blockAt(hosts, start), last = blockAt(hosts, end);
  if (first === null || first === last) return first ? [first] : [];
  const frame = cellOf(first);
  const blocks = [...blocksBelow(frame ?? hosts.root)];
  const isBehind = (/** @type {Host} */ { key }) => !isBefore(hosts, [key, 0, 'element'], end);
  const behind = last ? blocks.indexOf(last) + 1 : blocks.findIndex(isBehind);
  return blocks.slice(blocks.indexOf(first), behind < 0 ? undefined : behind)
    .filter(block => isLine(block) && cellOf(block) === frame);
}

/**
 * The texts in a range, each with the offsets from which and to which it is in it; none where that is nothing.
 * @param {Hosts} hosts
 * @param {TextRange} range
 * @returns {{ host: Host, text: string, from: number, to: number }[]}
 */
export function textsIn(hosts, range) {
  const [start, end] = inOrder(hosts, range);
  const hostsOfTexts = linesIn(hosts, range).flatMap(block => [...below(block, ({ text }) => text !== null)]);
  return hostsOfTexts.map(host => {
    const { key, text } = host, whole = text ?? '';
    return {
      host,
      text: whole,
      from: key === start[0] ? start[1] : isBefore(hosts, [key, 0, 'text'], start) ? whole.length : 0,
      to: key === end[0] ? end[1] : isBefore(hosts, [key, 0, 'text'], end) ? whole.length : 0,
    };
  }).filter(({ from, to }) => from < to);
}

/**
 * A range with both ends in one frame, as the core's commands need it: where an end is in a table and the other isn't,
 * the whole table is selected.
 * @param {Hosts} hosts
 * @param {Selection} selection
 * @returns {Selection}
 */
export function within(hosts, selection) {
  if (!isRange(selection) || isCaret(selection)) return selection;
  const { anchor } = selection, ends = inOrder(hosts, selection);
  const [ours, theirs] = ends.map(([key]) => framesAround(hosts.ofKey(key) ?? null));
  if (ours[0] === theirs[0]) return selection;
  const frame = ours.find(one => theirs.includes(one)) ?? null;
  const [start, end] = ends.map((point, index) => outOfTable(hosts, point, frame, index === 0));
  return ends[0] === anchor ? { anchor: start, focus: end } : { anchor: end, focus: start };
}

/**
 * @param {Host | null} host
 * @returns {(Host | null)[]}
 */
function framesAround(host) {
  const frames = [];
  for (let cell = cellOf(host); cell; cell = cellOf(cell.parent)) frames.push(cell);
  return [...frames, null];
}

/**
 * A point in a frame, or where the outermost table of the frame begins or ends that has the point in it.
 * @param {Hosts} hosts
 * @param {ReplyPoint} point
 * @param {Host | null} frame
 * @param {boolean} isStart
 * @returns {ReplyPoint}
 */
function outOfTable(hosts, point, frame, isStart) {
  const inner = /** @type {Host} */ (hosts.ofKey(point[0]));
  if (cellOf(inner) === frame) return point;
  let table = inner;
  for (let cell = cellOf(inner); cell && cell !== frame; cell = cellOf(table)) {
    table = /** @type {Host} */ (nearest(cell, ({ tag }) => tag === 'table'));
  }
  const host = parentOf(table), before = host.children[indexOf(table) - 1];
  // From the end of what is before, since nothing can be typed between blocks. What is behind stays as it is.
  if (isStart && before && isBlock(before)) return edgeOf(before, false);
  return [host.key, indexOf(table) + (isStart ? 0 : 1), 'element'];
}
