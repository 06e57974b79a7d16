// The core at work: the nodes with their keys, and each line with its reply and the time that it took.
import { entryOf } from './inspector-entry.js';
import { treeOf } from './inspector-tree.js';

const MOST_LINES = 40; // more than that nobody reads, and each costs elements

/**
 * Fills an element with what the core does, and puts a button in front of it that opens and closes it.
 * @param {import('./page.js').Page} page
 * @param {HTMLElement} element
 */
export function inspector(page, element) {
  const { ownerDocument: document } = element;
  const button = made(document, 'button', 'The core at work');
  const numbers = made(document, 'p');
  const nodes = made(document, 'div');
  const lines = made(document, 'ol');
  const parts = made(document, 'div',
    made(document, 'section', made(document, 'h3', 'Nodes'), nodes),
    made(document, 'section', made(document, 'h3', 'Lines, the latest first'), lines));
  /** @type {import('./inspector-entry.js').Told[]} the latest first, for the times */
  const told = [];
  element.classList.add('inspector');
  element.ariaLabel = 'The core at work';
  button.type = 'button';
  button.className = 'inspector-button';
  button.ariaExpanded = String(!element.hidden);
  numbers.className = 'inspector-numbers';
  nodes.className = 'inspector-nodes';
  lines.className = 'inspector-lines';
  lines.reversed = true;
  parts.className = 'inspector-parts';
  element.replaceChildren(numbers, parts);
  element.before(button);

  let count = 0; // of lines since the page was opened
  let isStale = true;

  page.on('told', entry => {
    if (entry.line.show) return; // questions of the page itself
    count += 1;
    told.unshift({ milliseconds: 0, ...entry, count });
    told.length = Math.min(told.length, MOST_LINES);
    isStale = true;
  });
  page.on('settled', () => {
    if (!element.hidden) draw();
  });
  button.addEventListener('mousedown', event => event.preventDefault()); // what is selected stays so
  button.addEventListener('click', () => {
    element.hidden = !element.hidden;
    button.ariaExpanded = String(!element.hidden);
    if (element.hidden) return;
    draw();
    element.scrollIntoView({ block: 'nearest' });
  });

  function draw() {
    nodes.replaceChildren(treeOf(page, document));
    nodes.querySelector('.inspector-caret')?.scrollIntoView({ block: 'nearest' });
    if (!isStale) return;
    isStale = false;
    numbers.textContent = summary();
    lines.start = count;
    lines.replaceChildren(...told.map((entry, index) => entryOf(entry, document, index === 0)));
  }

  /** What there is in numbers. The core is asked directly, so that its answer isn't told in turn. */
  function summary() {
    const { history = { undo: 0, redo: 0 } } = page.editor.line({ show: 'history' });
    const times = told.map(({ milliseconds }) => milliseconds).sort((one, other) => one - other);
    const median = times[Math.floor(times.length / 2)] ?? 0;
    return [
      counted(page.view.hosts.size - 1, 'node'),
      `history: ${history.undo} to undo, ${history.redo} to redo`,
      `${counted(count, 'line')} since the page was opened`,
      `${median.toFixed(2)} ms a line (median of the last ${told.length})`,
    ].join(' · ');
  }

  if (!element.hidden) draw();
}

/** @type {(number: number, word: string) => string} */
const counted = (number, word) => `${number.toLocaleString('en')} ${word}${number === 1 ? '' : 's'}`;

/**
 * @template {keyof HTMLElementTagNameMap} N
 * @param {Document} document
 * @param {N} name
 * @param {(Node | string)[]} inside
 */
function made(document, name, ...inside) {
  const element = document.createElement(name);
  element.append(...inside);
  return element;
}
