// The types of blocks: paragraphs, headings, quotes. All selected lines are made one, and items leave their lists.
import { edgeOf, indexOf, isBlock, isList } from '../hosts-order.js';
import { blockAt, caretAt, isAtStart, isCaret, linesIn, parentOf } from './ranges.js';
import { blockCommands } from './rules.js';

/** @typedef {import('../hosts.js').Host} Host */
/** @typedef {import('../hosts.js').Hosts} Hosts */
/** @typedef {import('../lines.js').Alignment} Alignment */
/** @typedef {import('../lines.js').Direction} Direction */
/** @typedef {import('../lines.js').Line} Line */
/** @typedef {import('../lines.js').ListType} ListType */
/** @typedef {import('../lines.js').Step} Step */
/** @typedef {import('../lines.js').Selection} Selection */
/** @typedef {(host: Host, as: string) => Step} Made the step that makes what takes a block's place */

/** @type {(host: Host | null) => boolean} */
const isItem = host => host?.tag === 'li';

/**
 * How many lists are around an item.
 * @param {Host} item
 */
function depthOf(item) {
  let depth = 0;
  for (let at = item; isItem(at) || isList(at); at = parentOf(at)) depth += isItem(at) ? 1 : 0;
  return depth;
}

/**
 * The fields that a block of another type takes over, as its host shows them.
 * @param {Host} host
 */
export function fieldsOf({ attributes }) {
  /** @type {{ format?: Alignment, indent?: number, direction?: Direction }} */
  const fields = {};
  if (attributes.has('data-align')) fields.format = /** @type {Alignment} */ (attributes.get('data-align'));
  if (attributes.has('data-indent')) fields.indent = Number(attributes.get('data-indent'));
  if (attributes.has('dir')) fields.direction = /** @type {Direction} */ (attributes.get('dir'));
  return fields;
}

/**
 * The lines that make all selected lines blocks of a type. Items that are below others are outdented first, by a line
 * of its own; the command is repeated after that.
 * @param {Hosts} hosts
 * @param {Selection} selection
 * @param {string} name one of `blockCommands`
 * @param {Host[]} cells
 * @returns {{ lines: Line[], isToRepeat: boolean }}
 */
export function blocksMade(hosts, selection, name, cells) {
  const blocks = linesIn(hosts, selection, cells);
  const deepest = Math.max(0, ...blocks.filter(isItem).map(depthOf));
  if (deepest > 1) return { lines: [{ update: Array(deepest - 1).fill({ dispatch: 'outdent' }) }], isToRepeat: true };
  const [block] = blocks;
  const isPlain = blocks.length === 1 && !isItem(block) && Object.keys(fieldsOf(block)).length === 0;
  if (isPlain && cells.length === 0) return { lines: [{ dispatch: name }], isToRepeat: false };
  const command = blockCommands[name], own = 'fields' in command ? command.fields : {};
  /** @type {Made} */
  const made = (host, as) => /** @type {Step} */ ({ new: command.new, fields: { ...fieldsOf(host), ...own }, as });
  return { lines: [{ update: stepsFor(blocks, made) }], isToRepeat: false };
}

/**
 * @param {Host[]} blocks
 * @param {Made} made
 * @returns {Step[]}
 */
function stepsFor(blocks, made) {
  /** @type {Step[]} */
  const steps = [];
  const lists = new Set(blocks.filter(isItem).map(parentOf));
  blocks.forEach((block, index) => {
    const name = `block-${index}`;
    if (isItem(block)) return;
    steps.push(made(block, name), { replace: block.key, with: name, keep: true });
  });
  for (const list of lists) steps.push(...parted(list, new Set(blocks), made));
  return steps;
}

/**
 * Whether an item holds lists alone, and so has no number.
 * @type {(item: Host) => boolean}
 */
const isNesting = ({ children }) => children.length > 0 && isList(children[0]);

/**
 * The steps by which items leave their list, which ends before the first of them. Others behind that go to lists like
 * it, which go on with its numbers. What is left empty is removed.
 * @param {Host} list
 * @param {Set<Host>} leaving
 * @param {Made} made
 * @returns {Step[]}
 */
function parted(list, leaving, made) {
  /** @type {Step[]} */
  const steps = [];
  const items = list.children, parent = parentOf(list), first = items.findIndex(item => leaving.has(item));
  let at = indexOf(list) + 1, number = Number(items[first].attributes.get('value') ?? 1);
  /** @type {string | null} the list that others go to */
  let rest = null;
  items.slice(first).forEach((item, index) => {
    const name = `item-${item.key}`;
    if (leaving.has(item)) {
      rest = null;
      steps.push(made(item, name), { put: name, into: parent.key, at: at++ }, { children: item.key, into: name });
      return;
    }
    if (rest === null) {
      rest = `list-${list.key}-${index}`;
      const start = typeOf(list) === 'number' ? { start: number } : {};
      steps.push({ new: 'list', fields: { listType: typeOf(list), ...start, ...fieldsOf(list) }, as: rest });
      steps.push({ put: rest, into: parent.key, at: at++ });
    }
    if (!isNesting(item)) number += 1;
    steps.push({ put: item.key, into: rest });
  });
  return [...steps, ...items.filter(item => leaving.has(item)).map(({ key }) => ({ remove: key }))];
}

/**
 * @param {Host} list
 * @returns {ListType}
 */
export function typeOf(list) {
  if (list.tag === 'ol') return 'number';
  return list.children.some(({ attributes }) => attributes.get('role') === 'checkbox') ? 'check' : 'bullet';
}

/**
 * What Backspace does at the start of a block, if it is more than to join the block with the one before: the name of a
 * command, or null.
 * @param {Hosts} hosts
 * @param {Selection} selection
 */
export function liftedBy(hosts, selection) {
  if (!isCaret(selection)) return null;
  const block = blockAt(hosts, selection.anchor);
  if (block === null || !isAtStart(hosts, selection.anchor, block)) return null;
  if (block.attributes.has('data-indent')) return 'outdent';
  if (isItem(block) && isItem(parentOf(block).parent)) return 'outdent';
  return block.tag === 'p' ? null : 'block-paragraph';
}

/**
 * The steps by which Enter at the start of a heading or a quote puts an empty paragraph before it, or null elsewhere:
 * what follows stays what it is.
 * @param {Hosts} hosts
 * @param {Selection} selection
 * @returns {Step[] | null}
 */
export function pushedDown(hosts, selection) {
  if (!isCaret(selection)) return null;
  const block = blockAt(hosts, selection.anchor);
  if (block === null || block.tag === 'p' || isItem(block) || block.children.length === 0) return null;
  if (!isAtStart(hosts, selection.anchor, block)) return null;
  return [{ new: 'paragraph', as: 'before' }, { put: 'before', into: parentOf(block).key, at: indexOf(block) }];
}

/**
 * The steps by which Delete in an empty paragraph takes that away, or null elsewhere: the next block stays what it is.
 * @param {Hosts} hosts
 * @param {Selection} selection
 * @returns {Step[] | null}
 */
export function emptyRemoved(hosts, selection) {
  const block = isCaret(selection) ? blockAt(hosts, selection.anchor) : null;
  if (block?.tag !== 'p' || block.children.length > 0) return null;
  const next = parentOf(block).children[indexOf(block) + 1];
  if (!next || !(isBlock(next) || isList(next))) return null;
  return [{ select: caretAt(edgeOf(next, true)) }, { remove: block.key }];
}

/**
 * The steps that align all selected lines.
 * @param {Host[]} blocks
 * @param {Alignment} format
 * @returns {Step[]}
 */
export function aligned(blocks, format) {
  return blocks.map(({ key }) => ({ set: key, fields: { format } }));
}
