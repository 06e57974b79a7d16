// Tables of Markdown become tables of a document.
import { inlinesOf } from './markdown-inline.js';

/** @typedef {import('./markdown-parser.js').Token} Token */
/** @typedef {import('./markdown-making.js').Making} Making */
/** @typedef {import('./replies.js').DocumentNode} DocumentNode */

/**
 * A table of the tokens inside it. A head whose cells are all empty is none, since Markdown has no other form for a
 * table without one.
 * @param {readonly Token[]} tokens
 * @param {readonly string[]} lines
 * @param {Making} making
 * @returns {DocumentNode}
 */
export function tableOf(tokens, lines, making) {
  /** @type {DocumentNode[]} */
  const rows = [];
  /** @type {DocumentNode[]} */
  let cells = [];
  let hasHead = false;
  tokens.forEach((token, index) => {
    if (token.type === 'th_open' || token.type === 'td_open') {
      const { children } = tokens[index + 1];
      if (token.type === 'th_open') hasHead ||= children?.length !== 0;
      cells.push(cellOf(token, children ?? [], making));
    } else if (token.type === 'tr_close') {
      rows.push(making.element('tablerow', cells));
      cells = [];
    }
  });
  const columns = columnsOf(lines[1] ?? '');
  if (lines.slice(2).some(line => columnsOf(line) > columns)) making.lose('cells beyond the columns of a table');
  return making.element('table', hasHead || rows.length === 1 ? rows : rows.slice(1));
}

/**
 * @param {Token} token
 * @param {readonly Token[]} inlines
 * @param {Making} making
 */
function cellOf(token, inlines, making) {
  const format = /text-align:(left|center|right)/.exec(token.attrGet('style') ?? '')?.[1] ?? '';
  const children = inlinesOf(inlines, making, true);
  const paragraph = making.element('paragraph', children, { format, textFormat: 0, textStyle: '' });
  const headerState = token.type === 'th_open' ? 1 : 0;
  return making.element('tablecell', [paragraph], { headerState, colSpan: 1, rowSpan: 1, backgroundColor: null });
}

/**
 * How many cells a line has, without looking at code: there parsers differ.
 * @param {string} line
 */
function columnsOf(line) {
  const inside = line.replace(/\\[\\|]|`[^`]*`/g, '').replace(/^[\s>]*\|/, '').replace(/\|\s*$/, '');
  return inside.split('|').length;
}
