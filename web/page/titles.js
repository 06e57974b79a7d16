// What a document is called.
import { follow } from './tools.js';

/**
 * The text of the first block that has one; nothing where none has.
 * @param {import('./page.js').AnyPage} page
 */
export function titleOf({ view }) {
  const texts = document.createTreeWalker(view.element, NodeFilter.SHOW_TEXT); // not all blocks: there may be many
  for (let node = texts.nextNode(); node !== null; node = texts.nextNode()) {
    let block = node.nodeValue?.trim() ? view.hostAround(node) : null;
    while (block?.parent?.parent) block = block.parent;
    if (block !== null) return (view.elementOf(block).textContent ?? '').trim().slice(0, 60);
  }
  return '';
}

/**
 * Calls the tab, and what is printed, as the document.
 * @param {import('./page.js').AnyPage} page
 */
export function showTitle(page) {
  const unnamed = document.title;
  follow(page, () => {
    const title = titleOf(page) || unnamed;
    if (document.title !== title) document.title = title;
  });
}
