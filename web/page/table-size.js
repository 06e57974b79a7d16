// A button for a new table, with a grid below it in which one shows how large the table is to be.
import { indexOf, isBlock } from '../hosts-order.js';
import { popup } from './popup.js';
import { blockAt, isCaret, parentOf, placesOf } from './ranges.js';
import { headerSteps } from './table-headers.js';
import { tool } from './tools.js';

const MOST = 8; // rows and columns that the grid offers; more come by the table's own bar

/**
 * @param {import('./page.js').AnyPage} page
 * @returns {[button: HTMLElement, grid: HTMLElement]}
 */
export function tableSize(page) {
  const button = tool('table', { label: 'Table', icon: 'table' });
  delete button.dataset.command;
  button.dataset.menu = 'table';
  const panel = document.createElement('div');
  const grid = document.createElement('div');
  const words = document.createElement('output');
  const cells = Array.from({ length: MOST * MOST }, (_, index) => cell(index));

  /** @param {number} to the index of a cell */
  function point(to) {
    const [rows, columns] = sizeAt(to);
    cells.forEach((each, index) => {
      each.classList.toggle('inside', sizeAt(index)[0] <= rows && sizeAt(index)[1] <= columns);
      each.tabIndex = index === to ? 0 : -1;
    });
    words.value = `${rows} × ${columns}`;
  }

  /** @param {number} index */
  async function insert(index) {
    panel.hidePopover();
    const [rows, columns] = sizeAt(index);
    /** @type {import('../lines.js').Step} */
    const step = { dispatch: 'insert-table', payload: [rows, columns, false] };
    const [{ refused }] = await page.act({ update: [step, ...emptyAway(page)] });
    if (!refused) await page.act({ tags: ['history-merge'], update: headerSteps(page, 'row') });
    page.focus();
  }

  panel.className = 'table-size';
  panel.role = 'dialog';
  panel.ariaLabel = 'Size of the table: rows and columns';
  grid.className = 'table-size-grid';
  grid.append(...cells);
  panel.append(grid, words);
  popup(button, panel, { opened: () => { point(MOST + 1); cells[MOST + 1].focus(); } });
  const indexOfCell = (/** @type {EventTarget | null} */ target) => cells.findIndex(each => each === target);
  grid.addEventListener('pointermove', ({ target }) => cells[indexOfCell(target)]?.focus());
  grid.addEventListener('focusin', ({ target }) => point(indexOfCell(target)));
  grid.addEventListener('click', ({ target }) => {
    if (indexOfCell(target) >= 0) insert(indexOfCell(target));
  });
  panel.addEventListener('keydown', event => {
    event.stopPropagation(); // the bar around it has arrows of its own
    const [rows, columns] = sizeAt(indexOfCell(document.activeElement));
    const to = {
      ArrowDown: [rows + 1, columns],
      ArrowUp: [rows - 1, columns],
      ArrowRight: [rows, columns + 1],
      ArrowLeft: [rows, columns - 1],
    }[event.key];
    if (to === undefined) return;
    event.preventDefault();
    cells.find((_, index) => String(sizeAt(index)) === String(to))?.focus();
  });
  return [button, panel];
}

/**
 * The step that removes an empty paragraph with the caret: the table takes its place. One has to be before a table.
 * @param {import('./page.js').AnyPage} page
 */
function emptyAway(page) {
  const { hosts } = page.view, selection = page.selected ?? placesOf(page.selection);
  const block = isCaret(selection) ? blockAt(hosts, selection.anchor) : null;
  if (block?.tag !== 'p' || block.children.length > 0) return [];
  const before = parentOf(block).children[indexOf(block) - 1];
  return before && isBlock(before) ? [{ remove: block.key }] : [];
}

/**
 * The rows and columns of the table whose last cell is a cell of the grid.
 * @type {(index: number) => [rows: number, columns: number]}
 */
const sizeAt = index => [Math.floor(index / MOST) + 1, index % MOST + 1];

/** @param {number} index */
function cell(index) {
  const element = document.createElement('button'), [rows, columns] = sizeAt(index);
  element.type = 'button';
  element.ariaLabel = `${rows} rows, ${columns} columns`;
  return element;
}
