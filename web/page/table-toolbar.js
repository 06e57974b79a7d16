// The small bar of a table, below that of the page: there it hides no line next to the table.
import { cellAt } from './cells.js';
import { all, closest } from './elements.js';
import { isOfCells, placesOf } from './ranges.js';
import { showSelectedCells } from './selected-cells.js';
import { hasHeaders, headerSteps, tableAt } from './table-headers.js';
import { follow, followArrows, group, stopAt, tool, toolsSeen } from './tools.js';

/** @typedef {import('./page.js').AnyPage} Page */
/** @typedef {import('../lines.js').Line} Line */
/**
 * @typedef {{ label: string, icon: import('./icons.js').Name, lines: (page: Page) => Line,
 *   isPressed?: (page: Page) => boolean, isOff?: (page: Page) => boolean }} Control
 */

/** @type {(name: string, payload?: string) => () => Line} */
const command = (name, payload) => () => payload === undefined ? { dispatch: name } : { dispatch: name, payload };

/** @type {Record<string, Control>} */
const controls = {
  'row-before': { label: 'Row above', icon: 'row-before', lines: command('insert-row', 'before') },
  'row-after': { label: 'Row below', icon: 'row-after', lines: command('insert-row', 'after') },
  'column-before': { label: 'Column before', icon: 'column-before', lines: command('insert-column', 'before') },
  'column-after': { label: 'Column behind', icon: 'column-after', lines: command('insert-column', 'after') },
  'delete-row': { label: 'Delete row', icon: 'row-away', lines: command('delete-row') },
  'delete-column': { label: 'Delete column', icon: 'column-away', lines: command('delete-column') },
  'merge-cells': { label: 'Merge cells', icon: 'merge', lines: command('merge-cells'), isOff: page => !hasCells(page) },
  'unmerge': { label: 'Split cell', icon: 'unmerge', lines: command('unmerge'), isOff: page => !isMerged(page) },
  'header-row': {
    label: 'Header row', icon: 'header-row',
    lines: page => ({ update: headerSteps(page, 'row') }),
    isPressed: page => hasHeaders(tableAt(page), 'row'),
  },
  'header-column': {
    label: 'Header column', icon: 'header-column',
    lines: page => ({ update: headerSteps(page, 'column') }),
    isPressed: page => hasHeaders(tableAt(page), 'column'),
  },
  'delete-table': { label: 'Delete table', icon: 'table-away', lines: command('delete-table') },
};

const groups = [
  ['row-before', 'row-after', 'delete-row'],
  ['column-before', 'column-after', 'delete-column'],
  ['merge-cells', 'unmerge'],
  ['header-row', 'header-column', 'delete-table'],
];

/**
 * Puts the bar into the element of the page's bar. It is shown while the caret is in a table.
 * @param {Page} page
 * @param {HTMLElement} element
 * @returns {HTMLElement} the bar
 */
export function tableToolbar(page, element) {
  const bar = document.createElement('div');
  bar.className = 'bar table-bar';
  bar.role = 'toolbar';
  bar.ariaLabel = 'Table';
  bar.hidden = true;
  bar.append(...groups.map(names => group(names.map(name => tool(name, controls[name])))));
  element.append(bar);
  bar.addEventListener('mousedown', event => event.preventDefault()); // what is selected stays so
  bar.addEventListener('click', async ({ target }) => {
    const button = closest(target, '.tool');
    if (!button || button.ariaDisabled === 'true') return;
    await page.act(controls[button.dataset.command ?? ''].lines(page));
    page.focus();
  });
  followArrows(bar);
  showSelectedCells(page);
  follow(page, () => {
    const isHidden = tableAt(page) === null;
    if (bar.hidden !== isHidden) bar.hidden = isHidden; // to hide it once more would have its style looked up anew
    if (isHidden) return;
    for (const button of all(bar, '.tool')) {
      const { isPressed, isOff } = controls[button.dataset.command ?? ''];
      if (isPressed) button.ariaPressed = String(isPressed(page));
      if (isOff) button.ariaDisabled = String(isOff(page));
    }
    if (!toolsSeen(bar).some(button => button.tabIndex === 0)) stopAt(bar, toolsSeen(bar)[0]);
  });
  return bar;
}

/** @type {(page: Page) => boolean} */
const hasCells = page => isOfCells(page.selected ?? page.selection);

/**
 * Whether the cell with the caret has come of several.
 * @param {Page} page
 */
function isMerged({ selected, selection, view: { hosts } }) {
  const cell = cellAt(hosts, selected ?? placesOf(selection));
  return ['colspan', 'rowspan'].some(name => Number(cell?.attributes.get(name) ?? 1) > 1);
}
