// Copying, cutting and pasting. What is selected goes to the clipboard three times: as the core's slice, for this page;
// as HTML, for mails and word processors; and as plain text.
import { ContentError } from '../content-error.js';
import { edgeOf, isBefore } from '../hosts-order.js';
import { htmlFromDocument, sliceFromHtml } from '../html.js';
import { cellsIn } from './cells.js';
import { sliceOfCells, stepsIntoCells } from './copied-cells.js';
import { linksIn } from './link-lines.js';
import { outsideLink } from './outside-links.js';
import { blockAt, caretAt, inOrder, isCaret, isRange, placesOf } from './ranges.js';
import { isEmpty, stepsOfSlice, stepsOfText, textOf } from './slices.js';
import { withChecks } from './todo-marks.js';

/** @typedef {import('./page.js').AnyPage} AnyPage */
/** @typedef {import('./page.js').Page} Page */
/** @typedef {import('../hosts.js').Hosts} Hosts */
/** @typedef {import('../replies.js').Slice} Slice */
/** @typedef {import('../lines.js').Selection} Selection */
/** @typedef {import('../lines.js').Step} Step */
/** @typedef {import('../replies.js').ReplyPoint} ReplyPoint */
/** @typedef {{ slice?: import('./slices.js').Copied, text?: string }} Content */

/** The type under which a slice is on the clipboard. Browsers pass it on to their own pages. */
export const sliceType = 'application/x-vaultsatin+json';

/** A picture, other than the check marks that Google Docs has as pictures: these are read. */
const hasPicture = /<img\b(?![^>]*\bcheckbox\b)/i;

/** @param {Page} page */
export function clipboard(page) {
  const { element } = page.view;
  const { ownerDocument } = element;
  for (const name of ['copy', 'cut', 'dragstart']) {
    // Tells the core what is selected. The promises of this act are kept before the browser calls the next listener.
    ownerDocument.addEventListener(name, event => { if (isWithin(page, event)) page.act({ update: [] }); }, true);
  }
  element.addEventListener('copy', event => { put(page, event.clipboardData, event); });
  element.addEventListener('cut', event => {
    if (put(page, event.clipboardData, event)) page.act({ dispatch: 'cut' });
  });
  pastes(page);
}

/**
 * Pasting alone, for a page whose core doesn't answer at once: there the browser copies what it shows.
 * @param {AnyPage} page
 */
export function pastes(page) {
  const { element } = page.view;
  const plainPastes = countPlainPastes(element);
  element.addEventListener('paste', event => {
    event.preventDefault();
    const times = plainPastes();
    const content = times > 1 ? null : contentOf(page, event.clipboardData);
    if (content === null) return;
    if (times === 0 && isAddress(content.text)) link(page, content.text);
    else insert(page, content);
  });
}

/**
 * Whether a text is an address and nothing else, as a browser's address bar gives it.
 * @param {string} [text]
 * @returns {text is string}
 */
const isAddress = text => text !== undefined && /^(https?:\/\/|mailto:)[^\s<>"]+$/.test(text);

/**
 * Makes a link of what is selected, or inserts one. In a link an address is text.
 * @param {AnyPage} page
 * @param {string} address
 */
function link(page, address) {
  const { hosts } = page.view, selected = outsideLink(hosts, page.selected);
  if (isCaret(selected) && isInLink(hosts, selected)) insert(page, { text: address });
  else page.act({ dispatch: 'link', payload: address });
}

/**
 * Answers a function that counts the pastes of one press of Ctrl+Shift+V, which asks for plain text; 0 if another key
 * was pressed, or none. Chromium may tell two of them where the first is prevented.
 * @param {HTMLElement} element
 */
function countPlainPastes(element) {
  let times = -1;
  element.addEventListener('keydown', ({ shiftKey, code }) => { times = shiftKey && code === 'KeyV' ? 0 : -1; });
  element.addEventListener('keyup', () => { times = -1; });
  return () => times < 0 ? 0 : times += 1;
}

/**
 * @param {AnyPage} page
 * @param {Event} event
 */
function isWithin(page, { target }) {
  return target instanceof Node && page.view.element.contains(target);
}

/**
 * Puts what is selected on the clipboard, or into what is dragged: whether anything is.
 * @param {Page} page
 * @param {DataTransfer | null} data
 * @param {Event} [event]
 */
export function put(page, data, event) {
  const slice = sliceNow(page);
  if (slice === null || data === null) return false;
  event?.preventDefault();
  data.setData(sliceType, JSON.stringify({ ...slice, ...openness(page) }));
  data.setData('text/html', htmlFromDocument(slice));
  data.setData('text/plain', textOf(slice.nodes));
  return true;
}

/**
 * Whether a range begins in the midst of a block, and whether it ends in one.
 * @param {AnyPage} page
 */
function openness({ selected, view: { hosts } }) {
  if (!isRange(selected)) return {};
  const [start, end] = inOrder(hosts, selected).map(point => placeAround(hosts, caretAt(point)));
  return { isStartOpen: start.hasBefore, isEndOpen: end.hasBehind };
}

/**
 * What is selected, as a slice; null if nothing is.
 * @param {Page} page
 * @returns {Slice | null}
 */
function sliceNow(page) {
  const { editor, selected } = page;
  if (selected === null) return null;
  if (selected.table !== undefined) {
    const { state } = editor.line({ show: 'state' });
    return state ? sliceOfCells(page.view.hosts, state, selected) : null;
  }
  const had = page.selection;
  if (isSame(selected, had)) return editor.line({ show: 'slice' }).slice ?? null;
  // A script has asked for the copy, so the promise of the act is still to be kept. Nobody is told of these lines: what
  // is selected is the same after them.
  editor.line({ update: [{ select: selected }] });
  const { slice = null } = editor.line({ show: 'slice' });
  editor.line({ update: [{ select: placesOf(had) }] });
  return slice;
}

/**
 * @param {Selection} selected
 * @param {import('../replies.js').ReplySelection} told
 */
function isSame(selected, told) {
  return told?.kind === 'range' && String([selected?.anchor, selected?.focus]) === String([told.anchor, told.focus]);
}

/**
 * What is on a clipboard or dropped, at its best: a slice of this page, HTML as a slice, or plain text. Null, with a
 * notice, where there is nothing for the page.
 * @param {AnyPage} page
 * @param {DataTransfer | null} data
 * @returns {Content | null}
 */
export function contentOf(page, data) {
  if (data === null) return null;
  const slice = sliceIn(page, data);
  if (slice !== null) return { slice };
  const text = data.getData('text/plain');
  if (text !== '') return { text };
  page.notify(nothingIn(data));
  return null;
}

/**
 * @param {AnyPage} page
 * @param {DataTransfer} data
 * @returns {Slice | null}
 */
function sliceIn(page, data) {
  const own = sliceOfJson(data.getData(sliceType));
  if (own !== null) return own;
  const html = data.getData('text/html');
  if (html === '') return null;
  try {
    const slice = /** @type {Slice} */ (sliceFromHtml(html)); // at once, since this is a page
    if (isEmpty(slice)) return null;
    if (hasPicture.test(html)) page.notify('Pictures were left out: their descriptions stand for them.');
    return { ...slice, nodes: /** @type {any} */ (withChecks(slice.nodes)) };
  } catch (error) {
    if (!(error instanceof ContentError)) throw error;
    page.notify('The formatted text is too large, or nests too deep. Its plain text is taken.');
    return null;
  }
}

/**
 * @param {string} json
 * @returns {Slice | null}
 */
function sliceOfJson(json) {
  try {
    const slice = JSON.parse(json);
    return Array.isArray(slice?.nodes) && slice.nodes.length > 0 ? slice : null;
  } catch {
    return null; // there is none
  }
}

/** @param {DataTransfer} data */
function nothingIn({ files }) {
  if (files.length === 0) return 'There is no text to insert.';
  const arePictures = Array.from(files).every(file => file.type.startsWith('image/'));
  return arePictures ? 'Pictures can’t be put into a document here.' : 'Drop a file onto the page to open it.';
}

/**
 * Inserts content in the place of what is selected, as one entry of the history.
 * @param {AnyPage} page
 * @param {Content} content
 * @param {Selection} [selected]
 * @param {string[]} [tags]
 */
export async function insert(page, content, selected = page.selected, tags = []) {
  const isCut = selected !== null && !isCaret(selected);
  if (isCut) {
    const [cut] = await page.act({ dispatch: 'remove-text' }, selected);
    if (cut?.refused) return;
  }
  const { hosts } = page.view;
  const at = outsideLink(hosts, isCut ? placesOf(page.selection) : selected);
  const steps = stepsFor(hosts, content, at);
  const [reply] = await page.act({ update: steps, tags: isCut ? ['history-merge'] : tags }, at);
  if (reply?.refused && isCut && !page.isShared) await page.act({ dispatch: 'undo' }); // nothing goes where nothing comes
}

/**
 * The steps that insert content at a caret, or at cells that are selected.
 * @param {Hosts} hosts
 * @param {Content} content
 * @param {Selection} at
 * @returns {Step[]}
 */
export function stepsFor(hosts, { slice, text = '' }, at) {
  const cells = slice && stepsIntoCells(hosts, slice, at);
  if (cells) return cells;
  if (at?.table !== undefined) {
    const [first] = cellsIn(hosts, at);
    const caret = caretAt(edgeOf(first, true));
    return [{ select: caret }, ...stepsFor(hosts, { slice, text }, caret)];
  }
  return slice ? stepsOfSlice(slice, placeAround(hosts, at)) : stepsOfText(text);
}

/**
 * What is around a caret.
 * @param {Hosts} hosts
 * @param {Selection} caret
 */
function placeAround(hosts, caret) {
  const point = /** @type {ReplyPoint | undefined} */ (caret?.anchor);
  const block = point === undefined ? null : blockAt(hosts, point);
  if (!point || block === null) return { hasBefore: false, hasBehind: false, isItem: false, isInLink: false };
  return {
    hasBefore: isBefore(hosts, edgeOf(block, true), point),
    hasBehind: isBefore(hosts, point, edgeOf(block, false)),
    isItem: block.tag === 'li',
    isInLink: isInLink(hosts, caret),
  };
}

/**
 * @param {Hosts} hosts
 * @param {Selection} caret
 */
function isInLink(hosts, caret) {
  return linksIn(hosts, caret).length > 0;
}
