// Blocks of a document written as lines of Markdown.
import { ContentError } from './content-error.js';
import { listLines } from './markdown-list-write.js';
import { DEEPEST, childrenOf, grouped, loseLayout, runsOf } from './markdown-nodes.js';
import { hasBreaks, settled, withoutBreaks, withoutLastBreaks } from './markdown-runs.js';
import { tableLines } from './markdown-table-write.js';
import { lineOf, linesOf } from './markdown-text.js';

/** @typedef {import('./markdown-nodes.js').Node} Node */
/** @typedef {import('./markdown-nodes.js').Lose} Lose */
/** @typedef {import('./markdown-runs.js').Run} Run */

/**
 * The lines of a document, or of a slice, which may be of inline nodes alone.
 * @param {any} document
 * @param {Lose} lose
 */
export function writtenBlocks(document, lose) {
  if (typeof document !== 'object' || document === null) throw new TypeError('a document is an object');
  const isSlice = document.nodes !== undefined;
  const top = isSlice ? { type: 'root', children: document.nodes } : document.root;
  if (typeof top !== 'object' || top === null) throw new ContentError('document', 'the document has no root');
  const root = { ...top, type: 'root' };
  const children = childrenOf(root);
  if (!isSlice) loseLayout(root, lose);
  if (children.length === 1 && children[0].type === 'paragraph' && childrenOf(children[0]).length === 0) {
    loseLayout(children[0], lose);
    return [];
  }
  return blockLines(children, 1, lose);
}

/**
 * The lines of blocks, with an empty one between two. Inline nodes beside each other are a paragraph.
 * @param {readonly Node[]} nodes
 * @param {number} depth
 * @param {Lose} lose
 * @returns {string[]}
 */
export function blockLines(nodes, depth, lose) {
  if (depth > DEEPEST) throw new ContentError('depth', `the document is deeper than ${DEEPEST}`);
  /** @type {string[]} */
  const lines = [];
  let marker = '';
  for (const group of grouped(nodes)) {
    const made = Array.isArray(group) ? paragraphLines(group, lose) : null;
    const list = made === null ? listOf(/** @type {Node} */ (group), marker, depth, lose) : null;
    const block = made ?? list?.lines ?? ownLines(/** @type {Node} */ (group), depth, lose);
    if (block.length === 0) continue;
    if (lines.length > 0) lines.push('');
    for (const line of block) lines.push(line);
    marker = list?.marker ?? '';
  }
  return lines;
}

/**
 * @param {Node} node
 * @param {string} marker that of a list right before
 * @param {number} depth
 * @param {Lose} lose
 */
function listOf(node, marker, depth, lose) {
  if (node.type !== 'list') return null;
  return listLines(node, [marker], depth, lose);
}

/**
 * @param {Node} node
 * @param {number} depth
 * @param {Lose} lose
 * @returns {string[]}
 */
function ownLines(node, depth, lose) {
  switch (node.type) {
    case 'paragraph':
      loseLayout(node, lose);
      return paragraphLines(childrenOf(node), lose);
    case 'heading':
      loseLayout(node, lose);
      return headingLines(node, lose);
    case 'quote': {
      loseLayout(node, lose);
      const lines = blockLines(childrenOf(node), depth + 1, lose);
      return lines.length === 0 ? ['>'] : lines.map(line => line === '' ? '>' : `> ${line}`);
    }
    case 'table':
      loseLayout(node, lose);
      return tableLines(node, depth, lose);
    case 'horizontalrule': return ['***'];
  }
  throw new ContentError('document', `a ${node.type} stands where a block is`);
}

/**
 * @param {readonly Node[]} nodes
 * @param {Lose} lose
 */
function paragraphLines(nodes, lose) {
  const runs = settled(runsOf(nodes, lose));
  if (isCode(runs)) return fenceLines(runs, lose);
  const kept = withoutLastBreaks(runs, lose);
  if (kept.length === 0) lose('empty paragraphs');
  return kept.length === 0 ? [] : linesOf(kept, lose);
}

/**
 * Whether runs are lines of code, with a break and something to see.
 * @param {readonly Run[]} runs
 */
const isCode = runs => runs.some(run => run.kind === 'break')
  && runs.some(run => run.kind === 'code' && run.text.trim() !== '')
  && runs.every(run => run.kind === 'break' || (run.kind === 'code' && run.format === 0));

/**
 * A block of code between fences that are longer than any backticks in it.
 * @param {readonly Run[]} runs
 * @param {Lose} lose
 */
function fenceLines(runs, lose) {
  const code = runs.map(run => 'text' in run ? run.text : '\n').join('');
  if (code.includes('\r')) lose('line ends in code');
  const longest = (code.match(/`+/g) ?? []).reduce((most, ticks) => Math.max(most, ticks.length), 2);
  const fence = '`'.repeat(longest + 1);
  return [fence, ...code.split(/\r\n?|\n/), fence];
}

/**
 * A heading of one line, or underlined: those below the second level have no lines.
 * @param {Node} node
 * @param {Lose} lose
 */
function headingLines(node, lose) {
  const level = Number(/^h([1-6])$/.exec(String(node.tag ?? 'h1'))?.[1]);
  if (Number.isNaN(level)) throw new ContentError('document', 'a heading has a tag that is none');
  const runs = withoutLastBreaks(settled(runsOf(childrenOf(node), lose)), lose);
  const isBroken = hasBreaks(runs);
  if (isBroken && level === 1) return [...linesOf(runs, lose), '==='];
  const hasBars = runs.some(run => run.kind === 'code' && run.text.includes('|')); // below one `---` makes a table
  if (isBroken && level === 2 && !hasBars) return [...linesOf(runs, lose).map(withoutBars), '---'];
  if (isBroken) lose('line breaks in headings');
  const line = lineOf(settled(withoutBreaks(runs, ' ')), lose);
  return [`${'#'.repeat(level)} ${line.replace(/#+$/, '\\$&')}`.trimEnd()];
}

/** @param {string} line */
const withoutBars = line => line.replaceAll('|', '&#124;');
