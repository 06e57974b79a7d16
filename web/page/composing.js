// Composition, and all else that changes the page without leave. What an accent or a Chinese word is made of is drawn
// by the browser; at its end all of that is taken back, and what has come of it is typed. Any other change that isn't
// the page's own, such as one of an extension, is taken back at once.
import { caretAt, isCaret, isRange } from './ranges.js';
import { targetOf } from './targets.js';

/** @typedef {import('./page.js').AnyPage} Page */
/** @typedef {import('../lines.js').Selection} Selection */
/**
 * A composition: what its text replaces, and where that begins in the page. Keyboards of phones compose words anew that
 * are there already: then that is a word around the caret.
 * @typedef {{ selected: Selection, isWord: boolean, start: { node: Node, offset: number } | null }} Composition
 */

/** @param {Page} page */
export function guardComposing(page) {
  const { element } = page.view;
  /** @type {MutationRecord[]} what others have changed, and isn't taken back yet */
  let changes = [];
  /** @type {Composition | null} */
  let composing = null;

  const observer = new MutationObserver(records => {
    changes.push(...records);
    if (!composing && takeBack()) page.act([], null); // shows again what is selected
  });
  observer.observe(element, { subtree: true, childList: true, characterData: true, characterDataOldValue: true });

  /** Whether there was anything to take back. */
  function takeBack() {
    if (changes.length === 0) return false;
    for (const { type, target, oldValue, addedNodes, removedNodes, nextSibling } of changes.reverse()) {
      if (type === 'characterData') {
        /** @type {CharacterData} */ (target).data = oldValue ?? '';
      } else {
        for (const node of addedNodes) /** @type {ChildNode} */ (node).remove();
        for (const node of removedNodes) target.insertBefore(node, nextSibling);
      }
    }
    changes = [];
    observer.takeRecords(); // what was just done
    return true;
  }

  page.on('changing', () => {
    changes.push(...observer.takeRecords());
    if (!composing) takeBack();
  });
  page.on('changed', () => { observer.takeRecords(); }); // these changes are the page's

  element.addEventListener('compositionstart', () => {
    composing = { selected: page.selected, isWord: false, start: null };
  });
  element.addEventListener('beforeinput', event => {
    if (composing && event.inputType === 'insertCompositionText') composing = goingOn(page, event, composing);
  });
  element.addEventListener('compositionend', event => {
    const ended = composing, behind = ended ? behindCaret(page, ended, event.data) : 0;
    composing = null;
    changes.push(...observer.takeRecords());
    // A keyboard of a phone also begins one at each word that is touched, and ends it without a change.
    if (takeBack() && ended) typeComposed(page, ended, event.data, behind);
  });
}

/**
 * A composition once the browser has said where its text goes. What it replaces is told the first time.
 * @param {Page} page
 * @param {InputEvent} event
 * @param {Composition} composing
 * @returns {Composition}
 */
function goingOn(page, event, { selected, isWord, start }) {
  const [range] = event.getTargetRanges();
  const target = start === null ? targetOf(page, event) : null;
  const isOther = isRange(target) && !isCaret(target) && isCaret(selected);
  return {
    selected: isOther ? target : selected,
    isWord: isWord || isOther,
    start: range ? { node: range.startContainer, offset: range.startOffset } : start,
  };
}

/**
 * How many characters of a composed text are behind the caret.
 * @param {Page} page
 * @param {Composition} composition
 * @param {string} text
 */
function behindCaret(page, { start }, text) {
  const browser = page.view.element.ownerDocument.getSelection();
  if (start === null || browser?.focusNode !== start.node || browser.focusOffset < start.offset) return 0;
  return Math.max(0, start.offset + text.length - browser.focusOffset);
}

/**
 * Types what was composed. A composition that comes to nothing leaves what was selected, but takes the word away that
 * it was made of.
 * @param {Page} page
 * @param {Composition} composition
 * @param {string} text
 * @param {number} behind how many of its characters are behind the caret
 */
async function typeComposed(page, { selected, isWord }, text, behind) {
  if (text === '') {
    page.act(isWord ? { dispatch: 'remove-text' } : [], selected);
    return;
  }
  await page.act({ dispatch: 'insert-text', payload: text }, selected);
  const { selection } = page;
  if (behind === 0 || !isCaret(selection)) return;
  const [key, offset] = selection.anchor;
  await page.act({ update: [{ select: caretAt([key, offset - behind, 'text']) }] }, null);
}
