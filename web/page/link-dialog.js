// A small dialog for a link: its address, and where nothing is selected its text.
import { show } from '../selection.js';
import { addressMeant } from './addresses.js';
import { icon } from './icons.js';
import { placeOfCaret } from './in-sight.js';
import { linksIn } from './link-lines.js';
import { placeBelow } from './popup.js';
import { formatIn, isCaret, isRange, placesOf } from './ranges.js';

/** @typedef {import('./page.js').AnyPage} Page */
/** @typedef {import('../lines.js').Line} Line */

/**
 * The dialog of a page. While it is open, what was selected before keeps its mark.
 * @param {Page} page
 * @returns {{ element: HTMLElement, open: () => void }}
 */
export function linkDialog(page) {
  const element = document.createElement('form');
  const text = field('Text'), address = field('Address');
  const apply = button('Link', 'done'), follow = button('Open', 'open'), remove = button('No link', 'unlink');
  /** @type {import('./ranges.js').TextRange | null} */
  let selection = null;

  element.className = 'popup link-dialog';
  element.popover = 'auto';
  element.noValidate = true;
  element.role = 'dialog';
  element.ariaLabel = 'Link';
  apply.type = 'submit';
  address.input.inputMode = 'url';
  address.input.placeholder = 'https://';
  element.append(text.label, address.label, buttons(apply, follow, remove));

  function open() {
    const { hosts } = page.view;
    const selected = page.selected ?? placesOf(page.selection);
    if (!isRange(selected)) return page.notify('Put the caret where the link is to be, or select its words.');
    selection = selected;
    const [link] = linksIn(hosts, selection);
    text.label.hidden = Boolean(link) || !isCaret(selection);
    follow.hidden = remove.hidden = !link;
    text.input.value = '';
    address.input.value = link?.attributes.get('href') ?? '';
    address.input.setCustomValidity('');
    markSelected(page);
    element.style.setProperty('--top', '0px'); // so that it has its whole height
    element.showPopover();
    placeBelow(element, placeOfSelected(page));
    const { input } = text.label.hidden ? address : text;
    input.focus();
    input.select();
  }

  /**
   * Says beside the address what is wrong with it.
   * @param {string} words
   */
  function complain(words) {
    address.input.setCustomValidity(words);
    address.input.reportValidity();
  }

  /**
   * Puts the caret back where it was: the browser moves it into what has the focus.
   * @param {Line} [line]
   */
  async function close(line) {
    const kept = selection;
    element.hidePopover();
    if (line) await page.act(line, kept);
    page.focus();
    if (!line && kept) show(page.view, { format: 0, ...kept, kind: 'range' });
  }

  element.addEventListener('submit', event => {
    event.preventDefault();
    const url = addressMeant(address.input.value);
    if (url === null) return complain('Links to such addresses can run programs.');
    if (/\s/.test(url)) return complain('An address has no spaces in it.');
    if (url === '') return close({ dispatch: 'unlink' });
    if (text.label.hidden) return close({ dispatch: 'link', payload: url });
    close(linkWith(text.input.value || address.input.value.trim(), url, formatIn(page.selection)));
  });
  address.input.addEventListener('input', () => address.input.setCustomValidity(''));
  remove.addEventListener('click', () => close({ dispatch: 'unlink' }));
  follow.addEventListener('click', () => {
    const url = addressMeant(address.input.value);
    if (url) window.open(url, '_blank', 'noopener');
    close();
  });
  element.addEventListener('keydown', event => {
    event.stopPropagation();
    if (event.key !== 'Escape') return;
    event.preventDefault();
    close();
  });
  element.addEventListener('toggle', ({ newState }) => {
    if (newState === 'closed') globalThis.CSS?.highlights?.delete('selected');
  });
  return { element, open };
}

/**
 * The browser's selection, if it is in the document.
 * @param {Page} page
 */
function browserSelection(page) {
  const browser = getSelection();
  return browser && browser.rangeCount > 0 && page.selected ? browser : null;
}

/**
 * What is selected loses the browser's mark as the dialog gets the focus, so it gets another.
 * @param {Page} page
 */
function markSelected(page) {
  const range = browserSelection(page)?.getRangeAt(0).cloneRange();
  if (range) globalThis.CSS?.highlights?.set('selected', new Highlight(range));
}

/**
 * The place of what is selected in the window.
 * @param {Page} page
 */
function placeOfSelected(page) {
  const browser = browserSelection(page), place = browser?.getRangeAt(0).getBoundingClientRect();
  if (!browser?.focusNode || !place) return page.view.element.getBoundingClientRect();
  const { focusNode, focusOffset } = browser;
  return place.height > 0 ? place : placeOfCaret({ focusNode, focusOffset });
}

/**
 * The line that puts in a link with its text.
 * @param {string} text
 * @param {string} url
 * @param {number} format
 * @returns {Line}
 */
function linkWith(text, url, format) {
  const nodes = [{ type: 'link', url, children: [{ type: 'text', text, format }] }];
  return { dispatch: 'paste', payload: JSON.stringify({ namespace: 'lexical-core', nodes }) };
}

/** @param {string} words */
function field(words) {
  const label = document.createElement('label'), input = document.createElement('input');
  input.type = 'text';
  input.spellcheck = false;
  input.autocomplete = 'off';
  label.append(words, input);
  return { label, input };
}

/**
 * @param {string} words
 * @param {import('./icons.js').Name} name
 */
function button(words, name) {
  const element = document.createElement('button');
  element.type = 'button';
  element.append(icon(name), words);
  return element;
}

/** @param {Element[]} children */
function buttons(...children) {
  const element = document.createElement('div');
  element.className = 'buttons';
  element.append(...children);
  return element;
}
