// Buttons in a bar: how they look, how keys go through them, and when they look at the document.
import { all, closest } from './elements.js';
import { icon } from './icons.js';
import { shown, spoken } from './shortcuts.js';

/**
 * What a button shows.
 * @typedef {{ label: string, icon: import('./icons.js').Name, keys?: string, level?: number, isPressed?: Function }} Tool
 */

/**
 * A button of a bar.
 * @param {string} name
 * @param {Tool} control
 */
export function tool(name, control) {
  const button = document.createElement('button');
  button.type = 'button';
  button.className = 'tool';
  button.dataset.command = name;
  button.tabIndex = -1;
  button.ariaLabel = control.label;
  button.title = control.keys ? `${control.label} (${shown(control.keys)})` : control.label;
  if (control.keys) button.setAttribute('aria-keyshortcuts', spoken(control.keys));
  if (control.level) button.dataset.level = String(control.level);
  if (control.isPressed) button.ariaPressed = 'false';
  button.append(icon(control.icon));
  return button;
}

/**
 * Buttons that belong together.
 * @param {HTMLElement[]} children
 */
export function group(children) {
  const element = document.createElement('div');
  element.className = 'group';
  element.role = 'group';
  element.append(...children);
  const buttons = children.filter(child => child.classList.contains('tool'));
  const level = Math.min(...buttons.map(({ dataset }) => Number(dataset.level ?? 0)));
  if (level > 0) element.dataset.level = String(level); // a group without a button isn't shown
  return element;
}

/**
 * The buttons that can be seen.
 * @type {(bar: Element) => HTMLElement[]}
 */
export const toolsSeen = bar => all(bar, '.tool').filter(button => button.getClientRects().length > 0);

/**
 * Left and Right, Home and End move in a bar, of which one button is reached by Tab.
 * @param {HTMLElement} bar
 */
export function followArrows(bar) {
  bar.addEventListener('keydown', event => {
    const seen = toolsSeen(bar), at = seen.findIndex(button => button === event.target);
    const to = { ArrowRight: at + 1, ArrowLeft: at - 1 + seen.length, Home: 0, End: seen.length - 1 }[event.key];
    if (at < 0 || to === undefined) return;
    event.preventDefault();
    seen[to % seen.length].focus();
  });
  bar.addEventListener('focusin', ({ target }) => {
    const button = closest(target, '.tool');
    if (button) stopAt(bar, button);
  });
  requestAnimationFrame(() => stopAt(bar, toolsSeen(bar)[0]));
}

/**
 * Has the Tab key reach one button of a bar.
 * @param {HTMLElement} bar
 * @param {Element} [button]
 */
export function stopAt(bar, button) {
  for (const other of all(bar, '.tool')) other.tabIndex = other === button ? 0 : -1;
}

/**
 * What follows a page, and what has it look soon. All share one request for a frame: each costs a key some time.
 * @type {WeakMap<import('./page.js').AnyPage, { listeners: (() => void)[], soon: () => void }>}
 */
const following = new WeakMap();

/**
 * Calls a listener after acts, and when the caret has moved, at most once for each picture that the browser draws.
 * @param {import('./page.js').AnyPage} page
 * @param {() => void} listener
 */
export function follow(page, listener) {
  const { listeners, soon } = following.get(page) ?? beginFollowing(page);
  listeners.push(listener);
  soon();
}

/** @param {import('./page.js').AnyPage} page */
function beginFollowing(page) {
  /** @type {(() => void)[]} */
  const listeners = [];
  let isWaiting = false;
  const soon = () => {
    if (isWaiting) return;
    isWaiting = true;
    requestAnimationFrame(() => {
      isWaiting = false;
      for (const listener of listeners) {
        try {
          listener();
        } catch (error) {
          reportError(error); // the others look all the same
        }
      }
    });
  };
  page.on('settled', soon);
  const begun = { listeners, soon };
  following.set(page, begun);
  return begun;
}
