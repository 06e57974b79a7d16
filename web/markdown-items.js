// What stands in an item of a Markdown list becomes what an item of a document may hold: inlines and lists.
import { textNodes } from './markdown-inline.js';

/** @typedef {import('./markdown-making.js').Making} Making */
/** @typedef {import('./replies.js').DocumentNode} DocumentNode */
/** @typedef {Extract<DocumentNode, { children: DocumentNode[] }>} Element */

const LISTS = 22; // lists in lists, in a quote and with a link in the last: deeper ones reach a document's depth of 48

/**
 * The items for the blocks of one. Lists at its end are in an item of their own, as the core nests them.
 * @param {readonly DocumentNode[]} blocks
 * @param {boolean | undefined} checked
 * @param {number} level how many lists the item is in
 * @param {Making} making
 * @returns {DocumentNode[]}
 */
export function itemsOf(blocks, checked, level, making) {
  return madeItems(blocks.flatMap(block => withoutQuote(block, making)), checked, level, making);
}

/**
 * @param {readonly DocumentNode[]} blocks
 * @param {boolean | undefined} checked
 * @param {number} level
 * @param {Making} making
 * @returns {DocumentNode[]}
 */
function madeItems(blocks, checked, level, making) {
  const members = { value: 1, ...(checked === undefined ? {} : { checked }) };
  const first = blocks.findIndex(block => block.type === 'list');
  if (first >= 0 && level >= LISTS) return flattened(blocks, members, making);
  const isNesting = first >= 0 && blocks.slice(first).every(block => block.type === 'list');
  /** @type {DocumentNode[]} */
  const children = [];
  for (const block of isNesting ? blocks.slice(0, first) : blocks) addTo(children, block, making);
  const hasOwn = !isNesting || children.length > 0 || checked !== undefined;
  return [
    ...(hasOwn ? [making.element('listitem', children, members)] : []),
    ...(isNesting ? [making.element('listitem', blocks.slice(first), { value: 1 })] : []),
  ];
}

/**
 * Items beside those of the lists in it, where these would stand too deep.
 * @param {readonly DocumentNode[]} blocks
 * @param {object} members
 * @param {Making} making
 */
function flattened(blocks, members, making) {
  making.lose(`levels of lists below ${LISTS}`);
  /** @type {DocumentNode[]} */
  const items = [];
  /** @type {DocumentNode[]} */
  let children = [];
  const close = () => {
    if (children.length > 0) items.push(making.element('listitem', children, members));
    children = [];
  };
  for (const block of blocks) {
    if (block.type === 'list') {
      close();
      for (const item of block.children) items.push(item);
    } else {
      addTo(children, block, making);
    }
  }
  close();
  return items;
}

/**
 * Adds a block to the children of an item: a list as it is, and lines of others.
 * @param {DocumentNode[]} children
 * @param {DocumentNode} block
 * @param {Making} making
 */
function addTo(children, block, making) {
  if (block.type === 'list') {
    children.push(block);
  } else if (block.type === 'horizontalrule') {
    making.lose('rules in lists');
  } else if (block.type === 'table') {
    making.lose('tables in lists');
    for (const row of block.children) addLine(children, cellsOf(/** @type {Element} */ (row), making), making);
  } else if ('children' in block) {
    if (block.type === 'heading') making.lose('headings in lists');
    addLine(children, block.children, making);
  }
}

/**
 * @param {DocumentNode[]} children
 * @param {readonly DocumentNode[]} inlines
 * @param {Making} making
 */
function addLine(children, inlines, making) {
  const end = inlines.length - [...inlines].reverse().findIndex(inline => inline.type !== 'linebreak');
  if (end > inlines.length) return;
  if (end < inlines.length) making.lose('blank lines at the end of code in lists');
  const last = children.at(-1);
  if (last !== undefined && last.type !== 'list') {
    making.lose('paragraphs of items, which became lines');
    children.push(making.node({ type: 'linebreak', version: 1 }));
  }
  for (const inline of inlines.slice(0, end)) children.push(inline);
}

/**
 * The content of a row's cells, with a tab between two.
 * @param {Element} row
 * @param {Making} making
 */
function cellsOf(row, making) {
  return row.children.flatMap((cell, index) => {
    const [paragraph] = /** @type {Element} */ (cell).children;
    const { children } = /** @type {Element} */ (paragraph);
    return index === 0 ? children : [...textNodes('\t', 0, making), ...children];
  });
}

/**
 * @param {DocumentNode} block
 * @param {Making} making
 */
function withoutQuote(block, making) {
  if (block.type !== 'quote') return [block];
  making.lose('quotes in lists');
  return blocksOf(block, making);
}

/**
 * The blocks of a quote that was made of Markdown.
 * @param {Element} quote
 * @param {Making} making
 * @returns {DocumentNode[]}
 */
export function blocksOf(quote, making) {
  const [first] = quote.children;
  if (first === undefined || ['paragraph', 'heading', 'list'].includes(first.type)) return quote.children;
  return [making.element('paragraph', quote.children, { textFormat: 0, textStyle: '' })];
}
