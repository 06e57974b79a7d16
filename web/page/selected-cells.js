// Selected cells have a color of their own: the browser marks the texts from one cell to another, also in cells between
// them that aren't selected. The color comes by a style sheet, so that the elements of the view stay as they are.
import { cellsIn } from './cells.js';
import { follow } from './tools.js';

/** @param {import('./page.js').AnyPage} page */
export function showSelectedCells(page) {
  const { view } = page, sheet = new CSSStyleSheet();
  document.adoptedStyleSheets.push(sheet);
  let shown = '';
  follow(page, () => {
    const selection = page.selected ?? page.selection;
    const selectors = cellsIn(view.hosts, selection).map(cell => selectorOf(view.elementOf(cell), view.element)).join();
    if (selectors === shown) return;
    shown = selectors;
    view.element.classList.toggle('has-cells', selectors !== '');
    sheet.replaceSync(selectors && `:is(${selectors}) { background: var(--selected) !important; }`);
  });
}

/**
 * The places of an element and of those around it, from the element of the view on.
 * @param {Element} element
 * @param {Element} top
 */
function selectorOf(element, top) {
  const places = [];
  for (let at = element; at !== top && at.parentElement; at = at.parentElement) {
    places.unshift(`:nth-child(${Array.from(at.parentElement.children).indexOf(at) + 1})`);
  }
  return `#page > div > ${places.join(' > ')}`;
}
