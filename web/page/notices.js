// What the page has to say, in plain words: each notice goes after five seconds, but not while one points at it.
import { icon } from './icons.js';

const LASTING = 5000;

/**
 * Shows the notices of a page. The element is a live region, so a screen reader says them.
 * @param {import('./page.js').AnyPage} page
 * @param {HTMLElement} element
 */
export function notices(page, element) {
  element.classList.add('notices');
  element.role = 'status';
  page.on('notice', text => {
    for (const shown of element.children) if (shown.firstChild?.nodeValue === text) shown.remove(); // it is said anew
    element.append(notice(text));
  });
}

/** @param {string} text */
function notice(text) {
  const element = document.createElement('div');
  const close = document.createElement('button');
  let timer = 0;
  const wait = () => { timer = setTimeout(() => element.remove(), LASTING); };
  element.className = 'notice';
  close.type = 'button';
  close.ariaLabel = close.title = 'Close';
  close.append(icon('close'));
  close.addEventListener('click', () => element.remove());
  element.append(text, close);
  element.addEventListener('pointerenter', () => clearTimeout(timer));
  element.addEventListener('pointerleave', wait);
  wait();
  return element;
}
