// Links as they are typed: an address becomes one at the space or the break behind it, and so does `[words](address)`.
// As with other marks, one undo gives back what was typed.
import { addressMeant } from './addresses.js';
import { formatBits, formatOf } from './formats.js';
import { linkOf } from './link-lines.js';
import { caretAt, isCaret } from './ranges.js';

/** @typedef {import('./page.js').AnyPage} Page */
/** @typedef {import('../lines.js').Line} Line */
/** @typedef {import('../lines.js').Selection} Selection */
/** @typedef {import('../lines.js').Step} Step */
/** @typedef {{ key: number, from: number, text: string, url: string }} Address a part of a text, and its address */

/** An address of the web or of a mailbox, which no letter is before; what ends a sentence isn't of it. */
const typedAddress = /(?<![^\s([{"'“„«])((?:https?:\/\/|www\.)[^\s<>"]+|[\w.+-]+@[\w-]+(?:\.[\w-]+)+)$/iu;
const endOfSentence = /[.,;:!?'"”’»\]}]+$/u;

/** Words in square brackets, and behind them an address in round ones. */
const marked = /\[([^[\]]+)\]\(([^\s()]+)\)$/u;

/**
 * The address right before the caret, if it may become a link; null otherwise.
 * @param {Page} page
 * @param {Selection} selected
 * @returns {Address | null}
 */
export function addressBefore(page, selected) {
  const before = textBefore(page, selected);
  const found = before && typedAddress.exec(before.text);
  if (!found) return null;
  const whole = found[1].replace(endOfSentence, '');
  const text = whole.endsWith(')') && !whole.includes('(') ? whole.slice(0, -1) : whole;
  const url = addressMeant(text);
  return url ? { key: before.key, from: found.index, text, url } : null;
}

/**
 * The text before the caret, where that may become a link, with all of it and the key of its host.
 * @param {Page} page
 * @param {Selection | import('../replies.js').ReplySelection} selected
 */
function textBefore({ view: { hosts } }, selected) {
  if (!isCaret(selected)) return null;
  const [key, offset] = selected.anchor, host = hosts.ofKey(key);
  if (!host?.text || linkOf(host) !== null || formatOf(host) & formatBits.code) return null;
  return { key, text: host.text.slice(0, offset), whole: host.text };
}

/**
 * What makes a link of an address, if it is still there. The caret stays where it is.
 * @param {Page} page
 * @param {Address} address
 * @returns {Line | null}
 */
export function linkOfAddress(page, { key, from, text, url }) {
  const host = page.view.hosts.ofKey(key);
  if (!host?.text?.startsWith(text, from)) return null;
  return { tags: ['history-push'], update: linked({ key, text: host.text }, from, text.length, url) };
}

/**
 * What makes a link of words and an address in brackets before the caret; what is typed next isn't of it.
 * @param {Page} page
 * @returns {Line | null}
 */
export function linkOfMarks(page) {
  const before = textBefore(page, page.selection), found = before && marked.exec(before.text);
  const url = found && addressMeant(found[2]);
  if (!url) return null;
  const { key, text: { length }, whole } = before, { index, 1: words } = found;
  /** @type {(from: number, to: number) => Step[]} */
  const removed = (from, to) => [
    { select: { anchor: [key, from, 'text'], focus: [key, to, 'text'] } }, { dispatch: 'remove-text' },
  ];
  const left = { key, text: whole.slice(0, index) + words + whole.slice(length) };
  const steps = [...removed(index + 1 + words.length, length), ...removed(index, index + 1)];
  /** @type {Step} */
  const end = { select: caretAt([key, index + words.length, 'text']) };
  return { tags: ['history-push'], update: [...steps, end, ...linked(left, index, words.length, url)] };
}

/**
 * The steps that make a link of a part of a text.
 * @param {{ key: number, text: string }} host
 * @param {number} from
 * @param {number} length
 * @param {string} url
 * @returns {Step[]}
 */
function linked({ key, text }, from, length, url) {
  const at = [from, from + length].filter(offset => offset > 0 && offset < text.length);
  const part = from > 0 ? 'words' : key;
  return [
    ...(at.length > 0 ? [{ split: key, at, as: 'words' }] : []),
    { new: 'link', fields: { url }, as: 'link' },
    { wrap: part, in: 'link' },
  ];
}
