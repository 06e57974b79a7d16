// The bar of commands above the document. It is one stop of the Tab key, and arrows go through it. Where there is less
// room, buttons of a higher level go into the menu at its end.
import { controls, stateOf } from './controls.js';
import { all, closest } from './elements.js';
import { icon } from './icons.js';
import { linkBubble } from './link-bubble.js';
import { linkDialog } from './link-dialog.js';
import { mark, menu } from './menu.js';
import { isModHeld, isPressed } from './shortcuts.js';
import { tableSize } from './table-size.js';
import { follow, followArrows, group, stopAt, tool, toolsSeen } from './tools.js';

/** @typedef {import('./controls.js').State} State */
/** @typedef {import('./menu.js').Item} Item */
/** @typedef {(names: string[], kind: Item['kind'], level?: number) => Item[]} Items */

/** Widths in pixels from which there are buttons of level 1 and level 2. */
const WIDTHS = [0, 680, 810];

const blocks = ['block-paragraph', 'block-heading-1', 'block-heading-2', 'block-heading-3', 'block-quote'];
const lists = ['bullet', 'number', 'check'];
const alignments = ['align-left', 'align-center', 'align-right', 'align-justify'];
const levelled = ['underline', 'strikethrough', 'code', 'highlight'];

/**
 * Puts the bar of a page into an element. Its buttons have the names of their commands in `data-command`.
 * @param {import('./page.js').AnyPage} page
 * @param {HTMLElement} element
 * @returns {HTMLElement} the bar
 */
export function toolbar(page, element) {
  const bar = document.createElement('div');

  /** @param {string} name */
  async function choose(name) {
    if (name === 'link') return link.open();
    await page.act(controls[name].lines(stateOf(page), page)); // also where it is off: then it is idle
    page.focus();
  }

  const link = linkDialog(page);
  /** @type {Items} */
  const items = (names, kind, level) => names.map(name => ({ name, ...controls[name], kind, level }));
  const menus = [
    withMenu('block', 'Type of block', [...items(blocks, 'choice'), null, ...items(lists, 'choice')], choose),
    withMenu('align', 'Alignment', items(alignments, 'choice'), choose),
    withMenu('more', 'More', moreItems(items), choose),
  ];
  const [blockMenu, alignMenu, moreMenu] = menus;
  const tools = (/** @type {string[]} */ names) => names.map(name => tool(name, controls[name]));
  const linkTool = tool('link', { label: 'Link', icon: 'link', keys: 'Mod+K' });

  bar.className = 'bar';
  bar.role = 'toolbar';
  bar.ariaLabel = 'Commands';
  alignMenu.button.dataset.level = '2';
  bar.append(
    group(tools(['undo', 'redo'])),
    group([blockMenu.button, blockMenu.element]),
    group([...tools(['bold', 'italic', ...levelled]), linkTool]),
    group([alignMenu.button, alignMenu.element, ...tools(['outdent', 'indent'])]),
    group(tools(lists)),
    group([...tableSize(page), moreMenu.button, moreMenu.element]),
  );
  element.append(bar, link.element, linkBubble(page, link.open));
  const description = 'Alt and F10 go to the commands. Escape, and then Tab, leaves the document.';
  page.view.element.setAttribute('aria-description', description);

  bar.addEventListener('mousedown', event => {
    if (closest(event.target, '.tool')) event.preventDefault(); // what is selected stays so
  });
  bar.addEventListener('click', ({ target }) => {
    const name = closest(target, '.tool[data-command]')?.dataset.command;
    if (name !== undefined) choose(name);
  });
  bar.addEventListener('keydown', event => {
    if (event.key === 'Escape' && closest(event.target, '.tool')) page.focus();
  });
  page.view.element.addEventListener('keydown', event => {
    if (event.defaultPrevented || event.isComposing) return; // the page itself knows some of the keys
    if (!isModHeld(event) && !event.altKey) return;
    if (isPressed(event, 'Alt+F10')) all(bar, '.tool[tabindex="0"]')[0]?.focus(); // Tab itself is typed
    const known = namesWithKeys.find(each => isPressed(event, controls[each].keys ?? ''));
    const name = isPressed(event, 'Mod+K') ? 'link' : known;
    if (!name) return;
    event.preventDefault();
    choose(name);
  });

  followArrows(bar);
  followWidth(bar);
  let told = '';
  follow(page, () => {
    page.view.element.classList.toggle('is-empty', isEmpty(page));
    const state = stateOf(page), shown = JSON.stringify(state);
    if (shown === told) return; // as after most keys
    told = shown;
    showState(bar, state);
    for (const { element: entries } of menus) mark(entries, name => Boolean(controls[name].isPressed?.(state)));
    dress(blockMenu.button, typeShown(state));
    dress(alignMenu.button, controls[alignments.find(name => controls[name].isPressed?.(state)) ?? 'align-left']);
  });
  return bar;
}

const namesWithKeys = Object.keys(controls).filter(name => controls[name].keys);

/**
 * Whether there is one empty paragraph and nothing else.
 * @param {import('./page.js').AnyPage} page
 */
function isEmpty({ view: { element, hosts } }) {
  if (element.firstElementChild === null || element.firstElementChild.nextElementSibling) return false;
  const [first, second] = hosts.root.children; // all of one group
  return first.tag === 'p' && first.children.length === 0 && second === undefined;
}

/**
 * The type of the block, as its menu's button shows it: there may be headings that the menu hasn't.
 * @param {State} state
 * @returns {{ label: string, icon: import('./icons.js').Name }}
 */
function typeShown(state) {
  const level = /^heading-([4-6])$/.exec(state.block ?? '')?.[1];
  if (level) return { label: `Heading ${level}`, icon: 'heading' };
  return controls[[...blocks, ...lists].find(name => controls[name].isPressed?.(state)) ?? 'block-paragraph'];
}

/**
 * Each command that has no button of its own, and those whose buttons need more room.
 * @param {Items} items
 */
function moreItems(items) {
  return [
    ...items(levelled, 'check').map(item => ({ ...item, level: controls[item.name].level })),
    ...items(['subscript', 'superscript'], 'check'),
    ...items(['clear-format'], 'action'),
    null,
    ...items(['number', 'check'], 'check', 1),
    ...items(['toggle-checked'], 'action'),
    ...items(['outdent', 'indent'], 'action', 2),
    ...items(alignments, 'choice', 2),
    ...items(['left-to-right', 'right-to-left'], 'check'),
    null,
    ...items(['insert-rule', 'select-all'], 'action'),
  ];
}

/**
 * A button with a menu, and the menu.
 * @param {string} name
 * @param {string} label
 * @param {(Item | null)[]} items
 * @param {(name: string) => void} choose
 */
function withMenu(name, label, items, choose) {
  const button = tool(name, { label, icon: 'more' });
  delete button.dataset.command;
  button.dataset.menu = name;
  if (name !== 'more') button.append(icon('down'));
  return { button, element: menu(button, { label, items, choose }) };
}

/**
 * Shows on a menu's button what is chosen in it: the icon, and in words for the block's type.
 * @param {HTMLElement} button
 * @param {{ label: string, icon: import('./icons.js').Name }} chosen
 */
function dress(button, { label, icon: name }) {
  if (button.dataset.chosen === label) return;
  button.dataset.chosen = label;
  button.firstChild?.replaceWith(icon(name));
  button.querySelector('span')?.remove();
  if (button.dataset.menu !== 'block') return;
  const words = document.createElement('span');
  words.textContent = label;
  button.firstChild?.after(words);
}

/**
 * @param {Element} bar
 * @param {State} state
 */
function showState(bar, state) {
  for (const button of all(bar, '.tool[data-command]')) {
    const control = controls[button.dataset.command ?? ''];
    if (button.dataset.command === 'link') button.ariaPressed = String(Boolean(state.link));
    else if (control?.isPressed) button.ariaPressed = String(control.isPressed(state));
    if (control?.isOff) button.ariaDisabled = String(control.isOff(state));
  }
}

/**
 * Says how wide the bar is, for the style sheet, and keeps the stop of the Tab key on a button that can be seen.
 * @param {HTMLElement} bar
 */
function followWidth(bar) {
  new ResizeObserver(([{ contentRect }]) => {
    bar.dataset.width = String(WIDTHS.findLastIndex(width => contentRect.width >= width));
    const seen = toolsSeen(bar);
    if (seen.length > 0 && !seen.some(button => button.tabIndex === 0)) stopAt(bar, seen[0]);
  }).observe(bar);
}
