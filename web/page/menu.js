// A menu below a button. Arrows, Home, End and letters go through it, Enter chooses, Escape closes it.
import { all, closest } from './elements.js';
import { icon } from './icons.js';
import { popup } from './popup.js';
import { shown, spoken } from './shortcuts.js';

/**
 * What a menu offers. A choice is one of several that exclude each other; `level` says that the bar has it as a button
 * too, from that width up: see toolbar.js.
 * @typedef {{ name: string, label: string, icon?: import('./icons.js').Name, keys?: string, level?: number,
 *   kind?: 'choice' | 'check' | 'action' }} Item
 */

const roles = { choice: 'menuitemradio', check: 'menuitemcheckbox', action: 'menuitem' };

/**
 * Makes the menu of a button. Null among the items is a line between two groups.
 * @param {HTMLButtonElement} button
 * @param {{ label: string, items: (Item | null)[], choose: (name: string) => void }} options
 * @returns {HTMLElement} the menu, to be put right behind the button
 */
export function menu(button, { label, items, choose }) {
  const element = document.createElement('div');
  element.className = 'menu';
  element.role = 'menu';
  element.ariaLabel = label;
  element.append(...items.map(item => item ? entry(item) : line()));
  button.ariaHasPopup = 'menu';
  let from = 'first';
  popup(button, element, {
    opened() {
      const isChoice = element.firstElementChild?.role === roles.choice;
      const checked = isChoice && from === 'first' && all(element, '[aria-checked=true]')[0];
      (checked || entries(element).at(from === 'first' ? 0 : -1))?.focus();
      from = 'first';
    },
  });
  button.addEventListener('keydown', event => {
    if (event.key !== 'ArrowDown' && event.key !== 'ArrowUp') return;
    event.preventDefault();
    from = event.key === 'ArrowDown' ? 'first' : 'last';
    element.showPopover();
  });
  element.addEventListener('keydown', event => moveIn(element, event));
  element.addEventListener('pointermove', ({ target }) => closest(target, '[data-command]')?.focus());
  element.addEventListener('click', ({ target }) => {
    const name = closest(target, '[data-command]')?.dataset.command;
    if (name === undefined) return;
    element.hidePopover();
    choose(name);
  });
  return element;
}

/**
 * Says which entries are checked.
 * @param {HTMLElement} element
 * @param {(name: string) => boolean} isChecked
 */
export function mark(element, isChecked) {
  for (const item of all(element, '[aria-checked]')) item.ariaChecked = String(isChecked(item.dataset.command ?? ''));
}

/** @param {Item} item */
function entry({ name, label, icon: drawn, keys, level, kind = 'action' }) {
  const element = document.createElement('button');
  element.type = 'button';
  element.role = roles[kind];
  element.tabIndex = -1;
  element.dataset.command = name;
  if (level) element.dataset.level = String(level);
  if (kind !== 'action') element.ariaChecked = 'false';
  const words = document.createElement('span');
  words.textContent = label;
  element.append(drawn ? icon(drawn) : '', words);
  if (keys) {
    const pressed = document.createElement('kbd');
    pressed.textContent = shown(keys);
    pressed.ariaHidden = 'true'; // the attribute says it
    element.setAttribute('aria-keyshortcuts', spoken(keys));
    element.append(pressed);
  }
  return element;
}

function line() {
  return document.createElement('hr');
}

/**
 * The entries that can be seen: some are there only where the bar is narrow.
 * @param {Element} element
 */
function entries(element) {
  return all(element, '[data-command]').filter(item => item.getClientRects().length > 0);
}

/**
 * @param {HTMLElement} element
 * @param {KeyboardEvent} event
 */
function moveIn(element, event) {
  const items = entries(element), at = items.findIndex(item => item === document.activeElement);
  const to = {
    ArrowDown: at + 1,
    ArrowUp: at < 0 ? items.length - 1 : at - 1 + items.length,
    Home: 0,
    End: items.length - 1,
  }[event.key] ?? byLetter(items, at, event);
  event.stopPropagation(); // the bar around it has arrows of its own
  if (event.key === 'Tab') element.hidePopover();
  if (to === null) return;
  event.preventDefault();
  items[to % items.length].focus();
}

/**
 * The next entry that begins with the letter, or null.
 * @param {HTMLElement[]} items
 * @param {number} at
 * @param {KeyboardEvent} event
 */
function byLetter(items, at, { key, ctrlKey, metaKey, altKey }) {
  if (key.length !== 1 || key === ' ' || ctrlKey || metaKey || altKey) return null;
  /** @type {(item: HTMLElement) => boolean} */
  const begins = item => all(item, 'span')[0]?.textContent?.toLowerCase().startsWith(key.toLowerCase()) === true;
  const next = items.findIndex((item, index) => index > at && begins(item));
  return next >= 0 ? next : items.findIndex(begins) >= 0 ? items.findIndex(begins) : null;
}
