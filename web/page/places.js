// Places of the page by their points in the window.

/** @typedef {import('../dom.js').View} View */
/** @typedef {[node: Node, offset: number]} Place */

/**
 * The place under a point of the window, or null where that is outside the document.
 * @param {View} view
 * @param {number} x
 * @param {number} y
 * @returns {Place | null}
 */
export function placeUnder({ element }, x, y) {
  const { ownerDocument } = element;
  // Browsers have one of the two: the second is older.
  const position = ownerDocument.caretPositionFromPoint?.(x, y);
  const range = position ? null : ownerDocument.caretRangeFromPoint?.(x, y);
  const node = position?.offsetNode ?? range?.startContainer;
  return node && element.contains(node) ? [node, position?.offset ?? range?.startOffset ?? 0] : null;
}

/**
 * The place in the document that is next to a point of the window.
 * @param {View} view
 * @param {number} x
 * @param {number} y
 */
export function placeAt(view, x, y) {
  const around = view.element.getBoundingClientRect(), style = getComputedStyle(view.element);
  const padding = (/** @type {string} */ side) => parseFloat(style.getPropertyValue(`padding-${side}`)) + 1;
  const between = (/** @type {number} */ from, /** @type {number} */ at, /** @type {number} */ to) => (
    Math.max(from, Math.min(at, to))
  );
  return placeUnder(
    view,
    between(around.left + padding('left'), x, around.right - padding('right')),
    between(around.top + padding('top'), y, Math.min(around.bottom - padding('bottom'), innerHeight - 1)),
  );
}

/**
 * Whether a point is beside the document: on what it lies on, and no bar of the window that scrolls.
 * @param {{ view: View }} page
 * @param {MouseEvent} event
 */
export function isPlaceBeside({ view: { element } }, { target, clientX, clientY }) {
  const { body, documentElement } = element.ownerDocument;
  const isDesk = [body, documentElement, element.parentElement].some(each => each === target);
  return isDesk && clientX < documentElement.clientWidth && clientY < documentElement.clientHeight;
}
