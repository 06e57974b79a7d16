// Between the browser's selection, which names places in a page, and the core's, which names nodes by their keys. Both
// count UTF-16 code units in texts, and children in elements.
import { indexOf, isBefore, isLeaf } from './hosts-order.js';
import { meant } from './selection-meant.js';

export { mapPoint } from './map-point.js';

/** @typedef {import('./dom.js').View} View */
/** @typedef {import('./hosts.js').Host} Host */
/** @typedef {import('./lines.js').Selection} Selection */
/** @typedef {import('./replies.js').ReplyPoint} ReplyPoint */
/** @typedef {import('./replies.js').ReplySelection} ReplySelection */
/** @typedef {import('./selection.js').BrowserRange} BrowserRange */
/** @typedef {[Node, number]} Place */

/**
 * What a range of the page selects, as a step `select` takes it, or null where an end of it is outside the view.
 * @param {View} view
 * @param {BrowserRange} range
 * @returns {Selection}
 */
export function selectionIn(view, { anchorNode, anchorOffset, focusNode, focusOffset }) {
  const anchor = anchorNode && pointAt(view, anchorNode, anchorOffset);
  const focus = focusNode && pointAt(view, focusNode, focusOffset);
  return anchor && focus ? meant(view.hosts, anchor, focus) : null;
}

/**
 * The point for a place of the page, or null outside the view.
 * @param {View} view
 * @param {Node} node
 * @param {number} offset
 * @returns {ReplyPoint | null}
 */
function pointAt(view, node, offset) {
  const host = view.hostAround(node);
  if (host === null) return null;
  const text = view.textOf(host);
  if (host.text !== null) {
    if (node === text) return [host.key, Math.min(offset, host.text.length), 'text'];
    return [host.key, text && isBehind(view, host, text, node, offset) ? host.text.length : 0, 'text'];
  }
  if (isLeaf(host)) return host.parent && [host.parent.key, indexOf(host) + (offset > 0 ? 1 : 0), 'element'];
  return [host.key, childrenBefore(view, host, node, offset), 'element'];
}

/**
 * The node that a place is in front of, of those inside a host's element; null at their end. What a client has put into
 * the page besides hosts counts as a whole: a place in it is in front of it at its start, and otherwise behind it.
 * @param {View} view
 * @param {Host} host
 * @param {Node} node
 * @param {number} offset
 * @returns {Node | null}
 */
function nodeBehind(view, host, node, offset) {
  const inside = view.insideOf(host);
  /** @type {(node: Node | null) => boolean} */
  const isAround = around => around === inside || view.isGroup(around);
  if (isAround(node)) return node.childNodes[offset] ?? (node === inside ? null : node.nextSibling);
  /** @type {Node | null} */
  let child = node;
  while (child !== null && !isAround(child.parentNode)) child = child.parentNode;
  if (child === null) return offset === 0 ? inside.firstChild : null; // in the outer element of two
  return offset === 0 ? child : nextOf(view, child);
}

/**
 * The node behind another one; behind the last one of a group it is the next group.
 * @param {View} view
 * @param {Node} node
 */
function nextOf(view, { nextSibling, parentNode }) {
  return nextSibling ?? (parentNode && view.isGroup(parentNode) ? parentNode.nextSibling : null);
}

/**
 * Whether a place in a host's element is behind the host's text.
 * @param {View} view
 * @param {Host} host
 * @param {Node} text
 * @param {Node} node
 * @param {number} offset
 */
function isBehind(view, host, text, node, offset) {
  let behind = nodeBehind(view, host, node, offset);
  while (behind !== null && behind !== text) behind = behind.nextSibling;
  return behind === null;
}

/**
 * How many children of a host are before a place in its element.
 * @param {View} view
 * @param {Host} host
 * @param {Node} node
 * @param {number} offset
 */
function childrenBefore(view, host, node, offset) {
  let behind = nodeBehind(view, host, node, offset);
  for (; behind !== null; behind = nextOf(view, behind)) {
    if (view.isGroup(behind)) behind = behind.firstChild ?? behind;
    const shown = view.hostAround(behind); // of an ending, or of what isn't of the view, the host itself
    if (shown !== null && shown.parent === host) return indexOf(shown);
  }
  return host.children.length;
}

/**
 * The place of the page that shows a point, or null where there is none.
 * @param {View} view
 * @param {ReplyPoint} point
 * @returns {Place | null}
 */
export function placeOf(view, [key, offset, kind]) {
  const host = view.hosts.ofKey(key);
  if (host === undefined) return null;
  if (kind === 'text') {
    const text = view.textOf(host);
    return text !== null && offset <= text.data.length ? [text, offset] : null;
  }
  if (host.text !== null || isLeaf(host) || offset > host.children.length) return null;
  const child = host.children[offset === 0 ? 0 : offset - 1], shown = child && view.elementOf(child);
  const inside = shown && view.isGroup(shown.parentNode) ? shown.parentNode : view.insideOf(host);
  return [/** @type {Node} */ (inside), offset === 0 ? 0 : placeBehind(shown)];
}

/**
 * The offset in its parent right behind a node.
 * @param {Node} node
 */
function placeBehind(node) {
  let offset = 0;
  /** @type {Node | null} */
  let before = node;
  for (; before !== null; before = before.previousSibling) offset += 1;
  return offset;
}

/**
 * Shows in the browser what the core says is selected. What already says the same stays untouched. Selected nodes are
 * no range of text: then, and if nothing is selected, the browser has nothing selected in the view.
 * @param {View} view
 * @param {ReplySelection} selection
 * @param {globalThis.Selection | null} [browser]
 */
export function show(view, selection, browser = view.element.ownerDocument.getSelection()) {
  if (browser === null) return;
  const ends = selection && endsOf(view, selection);
  if (ends === null) {
    if (isInside(view, browser)) browser.removeAllRanges();
  } else if (!isShown(view, selection, browser)) {
    const [[anchorNode, anchorOffset], [focusNode, focusOffset]] = ends;
    browser.setBaseAndExtent(anchorNode, anchorOffset, focusNode, focusOffset);
  }
}

/**
 * @param {View} view
 * @param {globalThis.Selection} browser
 */
function isInside(view, { anchorNode, focusNode }) {
  return [anchorNode, focusNode].some(node => node !== null && view.hostAround(node) !== null);
}

/**
 * Whether the browser's selection says the same, which may be by other places.
 * @param {View} view
 * @param {ReplySelection} selection
 * @param {globalThis.Selection} browser
 */
function isShown(view, selection, browser) {
  const shown = selectionIn(view, browser);
  if (!shown || !selection || shown.keys || selection.kind === 'nodes') return false;
  return String([shown.anchor, shown.focus, shown.table]) ===
    String([selection.anchor, selection.focus, selection.kind === 'cells' ? selection.table : undefined]);
}

/**
 * The places of the page from which and to which something is selected.
 * @param {View} view
 * @param {NonNullable<ReplySelection>} selection
 * @returns {[Place, Place] | null}
 */
function endsOf(view, selection) {
  if (selection.kind === 'nodes') return null;
  const { anchor, focus } = selection.kind === 'range' ? selection : aroundCells(view, selection);
  const places = [anchor && placeOf(view, anchor), focus && placeOf(view, focus)];
  return places[0] && places[1] && [places[0], places[1]];
}

/**
 * The points around two cells, each in its row: so one cell can be told from the text in it.
 * @param {View} view
 * @param {{ anchor: number, focus: number }} cells
 */
function aroundCells({ hosts }, cells) {
  const before = pointBefore(hosts.ofKey(cells.anchor)), behind = pointBefore(hosts.ofKey(cells.focus));
  if (before === null || behind === null) return { anchor: null, focus: null };
  const isBackward = isBefore(hosts, behind, before);
  (isBackward ? before : behind)[1] += 1; // the later of them goes behind its cell
  return { anchor: before, focus: behind };
}

/**
 * @param {Host | undefined} host
 * @returns {ReplyPoint | null}
 */
function pointBefore(host) {
  return host?.parent ? [host.parent.key, indexOf(host), 'element'] : null;
}
