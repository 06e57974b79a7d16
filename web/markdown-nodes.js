// Inline nodes of a document become runs, and what Markdown has no form for is told.
import { ContentError } from './content-error.js';
import { CODE, MARKED } from './markdown-runs.js';
import { isSafeAddress } from './safe.js';

/** @typedef {import('./markdown-runs.js').Run} Run */
/** @typedef {(what: string) => void} Lose */
/** @typedef {Record<string, unknown>} Node */

export const DEEPEST = 48; // levels of a document

/**
 * Formats without delimiters, by their bits.
 * @type {[bit: number, name: string][]}
 */
const unmarked = [[8, 'underline'], [32, 'subscript'], [64, 'superscript'], [128, 'highlight']];
const inlineTypes = new Set(['text', 'tab', 'linebreak', 'link', 'embed']);

/** @param {Node} node */
export const isInline = node => inlineTypes.has(String(node.type));

/**
 * The children of a node, each of which is an object with a type.
 * @param {Node} node
 * @returns {Node[]}
 */
export function childrenOf(node) {
  const children = node.children ?? [];
  if (!Array.isArray(children)) throw new ContentError('document', `the children of a ${node.type} are no list`);
  for (const child of children) {
    if (typeof child?.type !== 'string') throw new ContentError('document', `a child of a ${node.type} has no type`);
  }
  return children;
}

/**
 * Blocks, and lists of inline nodes that stand beside each other.
 * @param {readonly Node[]} nodes
 * @returns {(Node | Node[])[]}
 */
export function grouped(nodes) {
  /** @type {(Node | Node[])[]} */
  const groups = [];
  for (const node of nodes) {
    const last = groups.at(-1);
    if (!isInline(node)) groups.push(node);
    else if (Array.isArray(last)) last.push(node);
    else groups.push([node]);
  }
  return groups;
}

/**
 * A string that a node has, or an empty one.
 * @param {Node} node
 * @param {string} name
 * @returns {string}
 */
export function stringOf(node, name) {
  const value = node[name] ?? '';
  if (typeof value !== 'string') throw new ContentError('document', `the ${name} of a ${node.type} is no string`);
  return value;
}

/**
 * A number that a node has, or what it is by default.
 * @param {Node} node
 * @param {string} name
 * @param {number} [otherwise]
 * @returns {number}
 */
export function numberOf(node, name, otherwise = 0) {
  const value = node[name] ?? otherwise;
  if (typeof value !== 'number' || !Number.isInteger(value) || value < 0) {
    throw new ContentError('document', `the ${name} of a ${node.type} is no whole number`);
  }
  return value;
}

/**
 * @param {readonly Node[]} nodes
 * @param {Lose} lose
 * @param {boolean} [inLink]
 * @returns {Run[]}
 */
export function runsOf(nodes, lose, inLink = false) {
  return nodes.flatMap(node => {
    switch (node.type) {
      case 'text': return textRuns(node, stringOf(node, 'text'), lose);
      case 'tab': return textRuns(node, '\t', lose);
      case 'linebreak': return [{ kind: 'break', format: 0 }];
      case 'embed': return embedRuns(node, lose);
      case 'link':
        if (!inLink) return linkRuns(node, lose);
    }
    throw new ContentError('document', `a ${node.type} stands where text is`);
  });
}

/**
 * @param {Node} node
 * @param {string} text
 * @param {Lose} lose
 * @returns {Run[]}
 */
function textRuns(node, text, lose) {
  const format = numberOf(node, 'format');
  for (const [bit, name] of unmarked) if (format & bit) lose(name);
  if (stringOf(node, 'style') !== '') lose('styles');
  if (node.type === 'text' && (stringOf(node, 'mode') || 'normal') !== 'normal') lose('texts that go as a whole');
  if (node.type === 'text' && numberOf(node, 'detail') !== 0) lose('texts that stay by themselves');
  if (text.includes('\0')) lose('null characters: they became U+FFFD');
  const whole = text.replaceAll('\0', '\ufffd');
  return [{ kind: format & CODE ? 'code' : 'text', text: whole, format: format & MARKED }];
}

/**
 * @param {Node} node
 * @param {Lose} lose
 * @returns {Run[]}
 */
function embedRuns(node, lose) {
  const address = stringOf(node, 'src');
  if (isSafeAddress(address)) return [{ kind: 'embed', address, format: 0 }];
  lose('images with unsafe addresses');
  return [];
}

/**
 * @param {Node} node
 * @param {Lose} lose
 * @returns {Run[]}
 */
function linkRuns(node, lose) {
  const address = stringOf(node, 'url');
  const runs = runsOf(childrenOf(node), lose, true).filter(run => !('text' in run) || run.text !== '');
  loseLayout(node, lose);
  if (stringOf(node, 'rel') + stringOf(node, 'target') !== '') lose('how links open');
  if (runs.length === 0) {
    lose('links without text');
    return [];
  }
  const title = stringOf(node, 'title') || null;
  if (isSafeAddress(address)) return [{ kind: 'link', address, title, runs, format: 0 }];
  lose('links with unsafe addresses');
  return runs;
}

/**
 * Tells what an element has beside its children.
 * @param {Node} node
 * @param {Lose} lose
 * @param {boolean} [keepsAlignment]
 */
export function loseLayout(node, lose, keepsAlignment = false) {
  if (stringOf(node, 'format') !== '' && !keepsAlignment) lose('alignment');
  if (numberOf(node, 'indent') !== 0) lose('indentation');
  if (node.direction === 'rtl') lose('the direction of blocks');
  const isEmpty = childrenOf(node).length === 0;
  if (isEmpty && (numberOf(node, 'textFormat') !== 0 || stringOf(node, 'textStyle') !== '')) {
    lose('formats for text to come');
  }
}
