// Lists of a document written as lists of Markdown.
import { ContentError } from './content-error.js';
import { DEEPEST, childrenOf, grouped, loseLayout, numberOf, runsOf } from './markdown-nodes.js';
import { settled, withoutLastBreaks } from './markdown-runs.js';
import { linesOf } from './markdown-text.js';

/** @typedef {import('./markdown-nodes.js').Node} Node */
/** @typedef {import('./markdown-nodes.js').Lose} Lose */

/**
 * An item of Markdown: its paragraphs, and the lists in it.
 * @typedef {{ check: string, parts: (Node | Node[])[] }} Item
 * @typedef {{ lines: string[], marker: string, interrupts: boolean }} Written whether it may follow a paragraph at once
 */

/**
 * The lines of a list, whose marker isn't that of a list before it or of one that begins on the same line.
 * @param {Node} list
 * @param {readonly string[]} taken
 * @param {number} depth
 * @param {Lose} lose
 * @returns {Written}
 */
export function listLines(list, taken, depth, lose) {
  if (depth > DEEPEST) throw new ContentError('depth', `the document is deeper than ${DEEPEST}`);
  loseLayout(list, lose);
  const type = list.listType ?? 'bullet';
  const start = numberOf(list, 'start', 1);
  const markers = type === 'number' ? ['.', ')'] : ['-', '*', '+'];
  const marker = /** @type {string} */ (markers.find(mark => !taken.includes(mark)));
  /** @type {string[]} */
  const lines = [];
  itemsOf(list, lose).forEach((item, index) => {
    const front = type === 'number' ? `${start + index}${marker} ` : `${marker} `;
    const indent = ' '.repeat(front.length);
    itemLines(item, marker, depth + 1, lose).forEach((line, at) => {
      if (at === 0 && line === '' && index > 0) lines.push(''); // below a line with `|` a sole `-` would make a table
      if (at === 0) lines.push((front + line).trimEnd());
      else lines.push(line === '' ? '' : indent + line);
    });
  });
  const interrupts = / ./.test(lines[0] ?? '') && (type !== 'number' || start === 1);
  return { lines, marker, interrupts };
}

/**
 * The items of Markdown: those that only hold lists go into the one before, if it has text.
 * @param {Node} list
 * @param {Lose} lose
 */
function itemsOf(list, lose) {
  const nodes = childrenOf(list);
  for (const node of nodes) {
    if (node.type !== 'listitem') throw new ContentError('document', `a ${node.type} stands in a list`);
    loseLayout(node, lose);
  }
  const unset = nodes.every(node => isNesting(node) || (node.checked ?? null) === null) ? '[ ] ' : '';
  /** @type {Item[]} */
  const items = [];
  let takesLists = false;
  for (const node of nodes) {
    const parts = grouped(childrenOf(node));
    const last = items.at(-1);
    if (isNesting(node) && takesLists) {
      last?.parts.push(...parts);
      takesLists = false;
    } else {
      items.push({ check: checkOf(node, list.listType, unset, lose), parts });
      takesLists = parts.length === 1 && Array.isArray(parts[0]);
    }
    if (isNesting(node) && node.checked === true) lose('checks of items that only hold lists');
  }
  return items;
}

/**
 * Whether an item only holds lists.
 * @param {Node} item
 */
function isNesting(item) {
  const children = childrenOf(item);
  return children.length > 0 && children.every(child => child.type === 'list');
}

/**
 * @param {Node} item
 * @param {unknown} type
 * @param {string} unset what stands for no check in a list of checks
 * @param {Lose} lose
 */
function checkOf(item, type, unset, lose) {
  const checked = item.checked ?? null;
  if (isNesting(item)) return '';
  if (type !== 'check' && type !== 'number') {
    if (checked !== null) lose('checks in bullet lists');
    return '';
  }
  if (checked === null) return type === 'check' ? unset : '';
  return checked === true ? '[x] ' : '[ ] ';
}

/**
 * @param {Item} item
 * @param {string} marker that of the item's list
 * @param {number} depth
 * @param {Lose} lose
 * @returns {string[]}
 */
function itemLines(item, marker, depth, lose) {
  /** @type {string[]} */
  const lines = [];
  const parts = item.check !== '' && !Array.isArray(item.parts[0]) ? [[], ...item.parts] : item.parts;
  let before = marker; // that of what stands before on the same line, or of a list right before
  let isAfterText = false;
  parts.forEach((part, index) => {
    const isText = Array.isArray(part);
    const written = isText ? textLines(part, index === 0 ? item.check : '', lose) : null;
    const list = written === null ? nestedLines(/** @type {Node} */ (part), before, depth, lose) : null;
    const block = written ?? list?.lines ?? [];
    if (block.length === 0) return;
    if (lines.length > 0 && !(isAfterText && list?.interrupts)) lines.push('');
    for (const line of block) lines.push(line);
    isAfterText = isText;
    before = list?.marker ?? '';
  });
  return lines.length === 0 ? [''] : lines;
}

/**
 * @param {Node} node
 * @param {string} before
 * @param {number} depth
 * @param {Lose} lose
 */
function nestedLines(node, before, depth, lose) {
  if (node.type !== 'list') throw new ContentError('document', `a ${node.type} stands in an item`);
  return listLines(node, [before], depth + 1, lose);
}

/**
 * @param {readonly Node[]} nodes
 * @param {string} check
 * @param {Lose} lose
 */
function textLines(nodes, check, lose) {
  const runs = withoutLastBreaks(settled(runsOf(nodes, lose)), lose);
  const lines = runs.length === 0 ? [''] : linesOf(runs, lose);
  return runs.length === 0 && check === '' ? [] : [(check + lines[0]).trimEnd(), ...lines.slice(1)];
}
