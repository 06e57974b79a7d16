// Markdown's marks as they are typed: with one at its start and a space, a paragraph becomes a heading, a list or a
// quote, and what stands between two stars or others gets a format. The last character is typed first, so that one undo
// gives back the marks as they were typed.
import { edgeOf, indexOf } from '../hosts-order.js';
import { formatBits, formatOf } from './formats.js';
import { addressBefore, linkOfAddress, linkOfMarks } from './link-typing.js';
import { blockAt, caretAt, isCaret, parentOf } from './ranges.js';

/** @typedef {import('./page.js').AnyPage} Page */
/** @typedef {import('../lines.js').Line} Line */
/** @typedef {import('../lines.js').Point} Point */
/** @typedef {import('../lines.js').Selection} Selection */
/** @typedef {import('../lines.js').Step} Step */

/** @type {(type: import('../lines.js').ListType) => Step[]} */
const list = payload => [{ dispatch: 'make-list', payload }];

/** @type {Record<string, Step[]>} */
const marks = {
  '#': [{ dispatch: 'block-heading-1' }],
  '##': [{ dispatch: 'block-heading-2' }],
  '###': [{ dispatch: 'block-heading-3' }],
  '>': [{ dispatch: 'block-quote' }],
  '-': list('bullet'),
  '*': list('bullet'),
  '+': list('bullet'),
  '1.': list('number'),
  '1)': list('number'),
  '[]': list('check'),
  '[ ]': list('check'),
  '[x]': [...list('check'), { dispatch: 'toggle-checked' }],
};

/** @type {[string, RegExp][]} formats, with what is before the caret then: words in marks, behind no word */
const inline = [
  ['bold', /(?<![\p{L}\p{N}])\*\*(?!\s)([^*]+)(?<!\s)\*\*$/u],
  ['italic', /(?<![\p{L}\p{N}*])\*(?!\s)([^*]+)(?<!\s)\*$/u],
  ['strikethrough', /(?<![\p{L}\p{N}])~~(?!\s)([^~]+)(?<!\s)~~$/u],
  ['code', /(?<![\p{L}\p{N}`])`(?!\s)([^`]+)(?<!\s)`$/u],
];

/**
 * The steps that a mark at the start of a paragraph stands for, or null. A list goes on with the number of the list
 * before it, or begins at its own.
 * @param {string} mark
 * @param {import('../hosts.js').Host} block
 * @returns {Step[] | null}
 */
function stepsOf(mark, block) {
  if (Object.hasOwn(marks, mark)) return marks[mark];
  const start = /^\d{1,3}(?=[.)]$)/.exec(mark)?.[0], at = indexOf(block);
  if (start === undefined) return null;
  const { key, children } = parentOf(block);
  if (children[at - 1]?.tag === 'ol') return list('number');
  return [
    { new: 'list', fields: { listType: 'number', start: Number(start) }, as: 'list' },
    { put: 'list', into: key, at },
    { new: 'listitem', as: 'item' },
    { put: 'item', into: 'list' },
    { children: block.key, into: 'item' },
    { select: caretAt(/** @type {Point} */ (['item', 0, 'element'])) },
    { remove: block.key },
  ];
}

/**
 * Types a text. What it completes is known once it is there, and what is typed next comes behind that.
 * @param {Page} page
 * @param {string} text
 */
export function type(page, text) {
  const typed = { dispatch: 'insert-text', payload: text };
  if (text === ' ' && isCaret(page.selected)) return space(page, typed);
  if (text === '*' || text === '`' || text === '~') return page.act([typed, () => formatted(page)]);
  if (text === ')') return page.act([typed, () => linkOfMarks(page)]);
  return page.act(typed);
}

/**
 * A space: an address before it becomes a link, or a mark at its paragraph's start what it stands for. A list that this
 * makes joins those beside it.
 * @param {Page} page
 * @param {Line} typed
 */
function space(page, typed) {
  /** @type {import('./link-typing.js').Address | null} */
  let address = null;
  let isMade = false;
  return page.act([
    selected => {
      address = addressBefore(page, selected);
      return typed;
    },
    () => {
      const line = address ? linkOfAddress(page, address) : made(page);
      isMade = line !== null && !address;
      return line;
    },
    () => isMade ? { dispatch: 'join-lists' } : null,
  ]);
}

/**
 * What a mark and a space between a paragraph's start and the caret stand for, in their place.
 * @param {Page} page
 * @returns {Line | null}
 */
function made({ selection, view: { hosts } }) {
  if (!isCaret(selection)) return null;
  const { anchor } = selection, [key, offset] = anchor, host = hosts.ofKey(key), block = blockAt(hosts, anchor);
  if (block?.tag !== 'p' || !host?.text || block.children[0] !== host || host.text[offset - 1] !== ' ') return null;
  const steps = stepsOf(host.text.slice(0, offset - 1), block);
  if (steps === null) return null;
  return { tags: ['history-push'], update: [select(key, 0, offset), { dispatch: 'remove-text' }, ...steps] };
}

/** @type {(key: number, from: number, to: number) => Step} */
const select = (key, from, to) => ({ select: { anchor: [key, from, 'text'], focus: [key, to, 'text'] } });

/**
 * What stands between marks before the caret gets their format, and the marks go. What is typed next hasn't it.
 * @param {Page} page
 * @returns {Line | null}
 */
function formatted({ selection, view: { hosts } }) {
  if (!isCaret(selection)) return null;
  const [key, offset] = selection.anchor, host = hosts.ofKey(key), text = host?.text?.slice(0, offset) ?? '';
  const [name, pattern] = inline.find(([, each]) => each.test(text)) ?? [], found = pattern?.exec(text);
  if (!host || !name || !found || formatOf(host) & (formatBits.code | formatBits[name])) return null;
  const [{ length }, content] = found, start = offset - length, mark = (length - content.length) / 2;
  /** @type {Step} */
  const formatting = { dispatch: 'format-text', payload: name };
  return {
    tags: ['history-push'],
    update: [
      select(key, offset - mark, offset), { dispatch: 'remove-text' },
      select(key, start, start + mark), { dispatch: 'remove-text' },
      select(key, start, start + content.length), formatting,
      { select: caretAt(/** @type {Point} */ (['@focus', content.length, 'text'])) }, formatting,
    ],
  };
}

/**
 * Enter: three hyphens that are all of a paragraph become a rule, anything else is a new paragraph. An address before
 * the caret becomes a link.
 * @param {Page} page
 */
export function enter(page) {
  /** @type {import('../hosts.js').Host | null} */
  let hyphens = null;
  /** @type {import('./link-typing.js').Address | null} */
  let address = null;
  return page.act([
    selected => {
      hyphens = hyphensAt(page, selected);
      address = addressBefore(page, selected);
      return { dispatch: 'insert-paragraph' };
    },
    () => hyphens && page.view.hosts.ofKey(hyphens.key) === hyphens ? ruled(page, hyphens) : null,
    () => address && linkOfAddress(page, address),
  ]);
}

/**
 * @param {Page} page
 * @param {Selection} selected
 */
function hyphensAt({ view: { hosts } }, selected) {
  const block = isCaret(selected) ? blockAt(hosts, selected.anchor) : null;
  return block?.tag === 'p' && block.children.length === 1 && block.children[0].text === '---' ? block : null;
}

/**
 * A rule in the place of a paragraph; what is selected stays.
 * @param {Page} page
 * @param {import('../hosts.js').Host} block
 * @returns {Line}
 */
function ruled({ selection }, block) {
  const whole = { anchor: edgeOf(block, true), focus: edgeOf(block, false) };
  const back = selection?.kind === 'range' ? { anchor: selection.anchor, focus: selection.focus } : null;
  return {
    tags: ['history-push'],
    update: [
      { select: whole }, { dispatch: 'remove-text' }, { new: 'horizontalrule', as: 'rule' },
      { replace: block.key, with: 'rule' }, { select: back },
    ],
  };
}
