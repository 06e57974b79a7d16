// What can be done with the link at the caret, shown below it: one can open it, change it or take it away. By keys the
// link's dialog does the same.
import { icon } from './icons.js';
import { placeOfCaret } from './in-sight.js';
import { linkOf } from './link-lines.js';
import { placeBelow } from './popup.js';
import { isCaret } from './ranges.js';
import { follow } from './tools.js';

/**
 * Makes what is shown below a link, to be put into the document.
 * @param {import('./page.js').AnyPage} page
 * @param {() => void} edit opens the dialog of the link at the caret
 * @returns {HTMLElement}
 */
export function linkBubble(page, edit) {
  const element = document.createElement('div'), address = document.createElement('a');
  const change = button('Change the link', 'link'), remove = button('Remove the link', 'unlink');
  /** @type {number | null} the link for which Escape has closed it */
  let left = null;

  element.className = 'popup link-bubble';
  element.popover = 'manual'; // the document keeps the focus
  element.role = 'group';
  element.ariaLabel = 'Link';
  address.target = '_blank';
  address.rel = 'noopener';
  address.tabIndex = -1;
  element.append(address, change, remove);

  function update() {
    const key = keyOfLink(page);
    if (key !== left) left = null;
    const link = key === null ? undefined : page.view.hosts.ofKey(key);
    const href = link ? page.view.elementOf(link).getAttribute('href') : null;
    const isShown = element.matches(':popover-open'), isWanted = href !== null && left === null;
    if (isShown && !isWanted) element.hidePopover();
    if (!isWanted) return;
    address.href = address.title = address.textContent = href;
    if (!isShown) element.showPopover();
    const { focusNode = null, focusOffset = 0 } = getSelection() ?? {};
    if (focusNode) placeBelow(element, placeOfCaret({ focusNode, focusOffset }));
  }

  element.addEventListener('mousedown', event => event.preventDefault());
  change.addEventListener('click', () => {
    element.hidePopover();
    edit();
  });
  remove.addEventListener('click', () => page.act({ dispatch: 'unlink' }));
  page.view.element.addEventListener('keydown', ({ key }) => {
    if (key !== 'Escape' || !element.matches(':popover-open')) return;
    left = keyOfLink(page);
    element.hidePopover();
  });
  for (const name of ['blur', 'focus']) {
    // Not at once: the browser may be about to open or to close something else.
    page.view.element.addEventListener(name, () => { requestAnimationFrame(update); });
  }
  addEventListener('scroll', () => { if (element.matches(':popover-open')) update(); }, { passive: true });
  follow(page, update);
  return element;
}

/**
 * The key of the link with the caret; null without one, and where the focus is elsewhere.
 * @param {import('./page.js').AnyPage} page
 */
function keyOfLink({ selected, view }) {
  if (!isCaret(selected) || document.activeElement !== view.element) return null;
  return linkOf(view.hosts.ofKey(selected.anchor[0]) ?? null)?.key ?? null;
}

/**
 * @param {string} label
 * @param {import('./icons.js').Name} name
 */
function button(label, name) {
  const element = document.createElement('button');
  element.type = 'button';
  element.tabIndex = -1;
  element.ariaLabel = element.title = label;
  element.append(icon(name));
  return element;
}
