// What a person does with keys, and with the browser's own commands, as acts.
import { edgeOf } from '../hosts-order.js';
import { listenToArrows } from './arrows.js';
import { cellAt } from './cells.js';
import { insert } from './clipboard.js';
import { leaveGaps } from './gaps.js';
import { bringInSight } from './in-sight.js';
import { enter, type } from './markdown-typing.js';
import { listenToMouse } from './mouse.js';
import { blockAt, inOrder, isCaret, isRange, linesIn } from './ranges.js';
import { isModHeld, isPressed } from './shortcuts.js';
import { restOfParagraph, targetOf } from './targets.js';

/** @typedef {import('./page.js').AnyPage} Page */
/** @typedef {import('../hosts.js').Hosts} Hosts */
/** @typedef {import('../lines.js').Line} Line */
/** @typedef {import('../lines.js').Selection} Selection */

/** @type {(name: string, payload?: string) => Line} */
const command = (name, payload) => payload === undefined ? { dispatch: name } : { dispatch: name, payload };

/**
 * What the browser would do, by the names of input events.
 * @type {Record<string, Line>}
 */
const commands = {
  insertLineBreak: command('insert-line-break'),
  insertHorizontalRule: command('insert-rule'),
  insertUnorderedList: command('make-list', 'bullet'),
  insertOrderedList: command('make-list', 'number'),
  deleteContentBackward: command('delete-character', 'back'),
  deleteContentForward: command('delete-character', 'forward'),
  deleteWordBackward: command('delete-word', 'back'),
  deleteWordForward: command('delete-word', 'forward'),
  deleteByCut: command('cut'),
  formatBold: command('format-text', 'bold'),
  formatItalic: command('format-text', 'italic'),
  formatUnderline: command('format-text', 'underline'),
  formatStrikeThrough: command('format-text', 'strikethrough'),
  formatSubscript: command('format-text', 'subscript'),
  formatSuperscript: command('format-text', 'superscript'),
  formatRemove: command('clear-format'),
  formatIndent: command('indent'),
  formatOutdent: command('outdent'),
  formatJustifyLeft: command('align', 'left'),
  formatJustifyCenter: command('align', 'center'),
  formatJustifyRight: command('align', 'right'),
  formatJustifyFull: command('align', 'justify'),
  historyUndo: command('undo'),
  historyRedo: command('redo'),
};

/**
 * Browsers have no event of their own for these: their own list of what can be undone stays empty here.
 * @type {Record<string, Line>}
 */
const keys = {
  'Mod+A': command('select-all'),
  'Mod+Z': command('undo'),
  'Mod+Y': command('redo'),
  'Mod+Shift+Z': command('redo'),
};

/** @param {Page} page */
export function listenToInput(page) {
  const { element } = page.view;
  leaveGaps(page);
  listenToArrows(page);
  listenToMouse(page);
  let isTabFree = false; // Escape lets the next Tab leave the document, for those who have no mouse
  element.addEventListener('beforeinput', event => {
    if (event.isComposing || event.inputType.includes('Composition')) return; // see composing.js
    event.preventDefault();
    input(page, event);
  });
  element.addEventListener('keydown', event => {
    if (event.isComposing || event.defaultPrevented || event.altKey) return;
    const isToLeave = isTabFree && event.key === 'Tab';
    if (event.key !== 'Shift') isTabFree = event.key === 'Escape';
    const isToEnd = isModHeld(event) ? endMeant(event) : null;
    if (isToEnd !== null) {
      event.preventDefault();
      page.act(atEnd(page, isToEnd, event.shiftKey)).then(() => bringInSight(page));
      return;
    }
    const isTab = event.key === 'Tab' && !event.ctrlKey && !event.metaKey && !isToLeave;
    const chord = isModHeld(event) ? Object.keys(keys).find(each => isPressed(event, each)) : undefined;
    const line = isTab ? tabbed(page, event.shiftKey) : chord && keys[chord];
    if (!line) return;
    event.preventDefault();
    page.act(line);
  });
}

/**
 * @param {Page} page
 * @param {InputEvent} event
 */
function input(page, event) {
  const { inputType } = event, text = event.data ?? event.dataTransfer?.getData('text/plain') ?? '';
  const hasBreaks = /[\r\n]/.test(text);
  if (inputType === 'insertText' && !hasBreaks && event.getTargetRanges()[0]?.collapsed) return type(page, text);
  const target = targetOf(page, event), selected = target ?? page.selected;
  // Where there is a caret, and a word is meant, a keyboard corrects what was typed before.
  const isCorrection = target !== null && !isCaret(target) && isCaret(page.selected);
  if (inputType.startsWith('insert') && hasBreaks) return insert(page, { text }, selected);
  if (inputType === 'insertText' && !isCorrection) return type(page, text);
  if (inputType === 'insertParagraph') return enter(page);
  if (inputType === 'insertLink' && text !== '') return page.act(command('link', text));
  if (commands[inputType]) return page.act(commands[inputType]);
  // A word of the spelling checker, or all to the end of a line on the screen: the browser says what is meant.
  if (inputType.startsWith('delete')) return remove(page, inputType, selected);
  if (inputType.startsWith('insert') && text !== '') return page.act(command('insert-text', text), selected);
  return page.notify('This can’t be done here.');
}

/**
 * Takes away what the browser says: all to the end of a line on the screen, or to its start. Where that is nothing, the
 * break there goes. What a paragraph has is told by the document.
 * @param {Page} page
 * @param {string} inputType
 * @param {Selection} told
 */
function remove(page, inputType, told) {
  const [, kind, direction] = /(Soft|Hard)Line(Backward|Forward)$/.exec(inputType) ?? [];
  const { hosts } = page.view, { selected } = page;
  if (kind === undefined || !isCaret(selected)) return page.act(command('remove-text'), told);
  const line = kind === 'Hard' ? restOfParagraph(hosts, selected.anchor, direction === 'Forward') : told;
  if (line && !isCaret(line)) return page.act(command('remove-text'), line);
  return page.act(command('delete-character', direction === 'Forward' ? 'forward' : 'back'));
}

/**
 * In items, and where whole lines are selected, Tab moves a level; in a table to the next cell; else it is typed.
 * @param {Page} page
 * @param {boolean} isBack
 */
function tabbed(page, isBack) {
  const { hosts } = page.view, { selected } = page;
  const isItem = isRange(selected) && blockAt(hosts, selected.anchor)?.tag === 'li';
  if (!isItem && cellAt(hosts, selected)) return command(isBack ? 'previous-cell' : 'next-cell');
  const isMoved = isItem || isBack || hasWholeLines(hosts, selected);
  return isMoved ? command(isBack ? 'outdent' : 'indent') : command('insert-tab');
}

/**
 * Whether several lines are selected, or all of one: a tab in their place would take away more than is meant.
 * @param {Hosts} hosts
 * @param {Selection} selected
 */
function hasWholeLines(hosts, selected) {
  if (!isRange(selected) || isCaret(selected)) return false;
  const lines = linesIn(hosts, selected), ends = inOrder(hosts, selected);
  const isWhole = () => String(ends) === String([edgeOf(lines[0], true), edgeOf(lines[0], false)]);
  return lines.length > 1 || (lines.length === 1 && isWhole());
}

/**
 * Whether a key with Ctrl or Cmd goes to the end of the document, or to its start; null for others.
 * @param {KeyboardEvent} event
 */
function endMeant({ key, metaKey }) {
  if (key === 'End' || (metaKey && key === 'ArrowDown')) return true;
  return key === 'Home' || (metaKey && key === 'ArrowUp') ? false : null;
}

/**
 * The caret goes to the end of the document, or to its start: a browser finds none that is out of sight.
 * @param {Page} page
 * @param {boolean} isEnd
 * @param {boolean} isExtending
 * @returns {Line}
 */
function atEnd({ selected, view: { hosts } }, isEnd, isExtending) {
  const focus = edgeOf(hosts.root, !isEnd);
  const anchor = isExtending && isRange(selected) ? selected.anchor : focus;
  return { update: [{ select: { anchor, focus } }] };
}
