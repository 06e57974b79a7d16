// What opens below a button, above all else on the page, and closes at a click elsewhere or at Escape.

const GAP = 4; // pixels between a panel and what it belongs to

/**
 * Has a button open and close a panel. The panel is in the document, best right behind the button.
 * @param {HTMLButtonElement} button
 * @param {HTMLElement} panel
 * @param {{ opened?: () => void, closed?: () => void }} listeners
 */
export function popup(button, panel, { opened = () => {}, closed = () => {} }) {
  panel.classList.add('popup');
  panel.popover = 'auto';
  button.popoverTargetElement = panel;
  button.ariaExpanded = 'false';
  panel.addEventListener('beforetoggle', ({ newState }) => {
    button.ariaExpanded = String(newState === 'open');
    if (newState === 'open') placeBelow(panel, button.getBoundingClientRect());
  });
  panel.addEventListener('toggle', ({ newState }) => newState === 'open' ? opened() : closed());
}

/**
 * Places a panel below what is there, or above it if it is shown already and has no room below. The style sheet keeps
 * it between the sides of the window.
 * @param {HTMLElement} panel
 * @param {{ left: number, top: number, bottom: number }} place
 */
export function placeBelow(panel, { left, top, bottom }) {
  const below = bottom + GAP, above = top - GAP - panel.offsetHeight;
  const isBelow = below + panel.offsetHeight <= innerHeight || above < 0;
  panel.style.setProperty('--left', `${Math.round(left)}px`);
  panel.style.setProperty('--top', `${Math.round(isBelow ? below : above)}px`);
}
