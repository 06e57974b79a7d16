// The groups of blocks around the caret are laid out wherever the window is. In what isn't, the arrow keys of a browser
// find no place: from the edge of a group they would go far away.

/** @param {import('./page.js').AnyPage} page */
export function layOutNear(page) {
  const { view } = page;
  /** @type {Element[]} */
  let near = [];
  page.on('settled', () => {
    const group = groupAround(view, document.getSelection()?.focusNode ?? null);
    if (group === null) return;
    const groups = [group.previousElementSibling, group, group.nextElementSibling]
      .flatMap(each => each && view.isGroup(each) ? each : []);
    if (groups.length === near.length && groups.every((each, index) => each === near[index])) return;
    for (const each of near) if (!groups.includes(each)) each.classList.remove('near');
    for (const each of groups) each.classList.add('near');
    near = groups;
  });
}

/**
 * @param {import('../dom.js').View} view
 * @param {Node | null} node
 */
function groupAround(view, node) {
  let at = node;
  while (at !== null && !view.isGroup(at)) at = at.parentNode;
  return /** @type {Element | null} */ (at);
}
