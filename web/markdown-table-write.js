// Tables of a document written as tables of Markdown.
import { ContentError } from './content-error.js';
import { DEEPEST, childrenOf, isInline, loseLayout, numberOf, runsOf, stringOf } from './markdown-nodes.js';
import { hasBreaks, settled, withoutBreaks } from './markdown-runs.js';
import { lineOf } from './markdown-text.js';

/** @typedef {import('./markdown-nodes.js').Node} Node */
/** @typedef {import('./markdown-nodes.js').Lose} Lose */
/** @typedef {import('./markdown-runs.js').Run} Run */
/** @typedef {{ text: string, header: number, alignment: string }} Cell */

const PLACES = 100_000; // in the grid of a table with merged cells: those of a larger one are written side by side
/** @type {Record<string, string>} */
const dashes = { left: ':--', center: ':-:', right: '--:' };

/**
 * The lines of a table. One whose first row is no head gets a head of empty cells, as Markdown needs one.
 * @param {Node} table
 * @param {number} depth
 * @param {Lose} lose
 * @returns {string[]}
 */
export function tableLines(table, depth, lose) {
  const rows = rowsOf(table, depth, lose);
  if (rows.length === 0) return [];
  const columns = rows.reduce((most, row) => Math.max(most, row.length), 1);
  const hasHead = rows[0].length > 0 && rows[0].every(cell => cell.header & 1);
  loseHeaders(rows, hasHead, lose);
  const alignments = alignmentsOf(rows, columns, lose);
  const head = hasHead ? rows[0].map(cell => cell.text) : [];
  const rest = hasHead ? rows.slice(1) : rows;
  return [
    rowOf([...head, ...new Array(columns - head.length).fill('')]),
    rowOf(alignments.map(alignment => dashes[alignment] ?? '---')),
    ...rest.map(row => rowOf(row.length === 0 ? [''] : row.map(cell => cell.text))),
  ];
}

/** @param {readonly string[]} texts */
const rowOf = texts => `| ${texts.join(' | ')} |`;

/**
 * The cells of each row, with empty ones where another cell reaches.
 * @param {Node} table
 * @param {number} depth
 * @param {Lose} lose
 */
function rowsOf(table, depth, lose) {
  const rows = childrenOf(table).map(row => expect(row, 'tablerow', 'table'));
  const cells = rows.map(row => {
    loseLayout(row, lose);
    return childrenOf(row).map(cell => expect(cell, 'tablecell', 'row'));
  });
  const widths = cells.map(row => row.reduce((sum, cell) => sum + spanOf(cell, 'colSpan'), 0));
  const width = widths.reduce((most, count) => Math.max(most, count), 0);
  const isMerged = cells.some(row => row.some(cell => spanOf(cell, 'colSpan') > 1 || spanOf(cell, 'rowSpan') > 1));
  if (isMerged) lose('merged cells');
  const isLaidOut = isMerged && width * rows.length <= PLACES;
  /** @type {number[]} */
  const reach = []; // how many rows below are covered in each column
  return cells.map(row => {
    const written = row.map(cell => writtenCell(cell, depth, lose));
    return isLaidOut ? laidOut(row, written, reach) : written;
  });
}

/**
 * @param {Node} node
 * @param {string} type
 * @param {string} place
 */
function expect(node, type, place) {
  if (node.type !== type) throw new ContentError('document', `a ${node.type} stands in a ${place}`);
  return node;
}

/**
 * @param {Node} cell
 * @param {'colSpan' | 'rowSpan'} name
 */
const spanOf = (cell, name) => Math.max(1, numberOf(cell, name, 1));

/**
 * @param {readonly Node[]} row
 * @param {readonly Cell[]} written
 * @param {number[]} reach
 */
function laidOut(row, written, reach) {
  /** @type {Cell[]} */
  const places = [];
  const fill = () => {
    while (reach[places.length] > 0) {
      reach[places.length] -= 1;
      places.push({ text: '', header: written[0]?.header ?? 0, alignment: '' });
    }
  };
  row.forEach((cell, index) => {
    fill();
    for (let column = 0; column < spanOf(cell, 'colSpan'); column += 1) {
      reach[places.length] = spanOf(cell, 'rowSpan') - 1;
      places.push(column === 0 ? written[index] : { ...written[index], text: '' });
    }
  });
  fill();
  return places;
}

/**
 * @param {Node} cell
 * @param {number} depth
 * @param {Lose} lose
 * @returns {Cell}
 */
function writtenCell(cell, depth, lose) {
  loseLayout(cell, lose, true);
  if (stringOf(cell, 'backgroundColor') !== '') lose('backgrounds of cells');
  const blocks = childrenOf(cell);
  const [only] = blocks;
  const isPlain = blocks.length === 0 || (blocks.length === 1 && only.type === 'paragraph');
  if (!isPlain) lose('blocks in cells: their text became one line');
  if (isPlain && blocks.length === 1) loseLayout(only, lose, true);
  const own = stringOf(cell, 'format');
  const alignment = (isPlain && blocks.length === 1 ? stringOf(only, 'format') : '') || own;
  const runs = settled(runsIn(blocks, depth + 3, lose));
  if (hasBreaks(runs)) lose('line breaks in cells');
  const line = lineOf(settled(withoutOddCode(withoutBreaks(runs, ' '), lose)), lose, '&#96;');
  const text = line.replaceAll('|', '\\|');
  return { text, header: numberOf(cell, 'headerState'), alignment };
}

/**
 * The runs with text for code that has an odd number of backticks, after which old parsers don't see where a cell ends.
 * @param {readonly Run[]} runs
 * @param {Lose} lose
 * @returns {Run[]}
 */
function withoutOddCode(runs, lose) {
  return runs.map(run => {
    if (run.kind === 'link') return { ...run, runs: withoutOddCode(run.runs, lose) };
    if (run.kind !== 'code' || (run.text.match(/`/g)?.length ?? 0) % 2 === 0) return run;
    lose('code with backticks in tables');
    return { ...run, kind: 'text' };
  });
}

/**
 * The inline content of blocks, with a space between two.
 * @param {readonly Node[]} nodes
 * @param {number} depth
 * @param {Lose} lose
 * @returns {Run[]}
 */
function runsIn(nodes, depth, lose) {
  if (depth > DEEPEST) throw new ContentError('depth', `the document is deeper than ${DEEPEST}`);
  /** @type {Run[]} */
  const runs = [];
  let isAfterBlock = false;
  for (const node of nodes) {
    const made = isInline(node) ? runsOf([node], lose) : runsIn(childrenOf(node), depth + 1, lose);
    if (runs.length > 0 && made.length > 0 && (isAfterBlock || !isInline(node))) {
      runs.push({ kind: 'text', text: ' ', format: 0 });
    }
    for (const run of made) runs.push(run);
    isAfterBlock = !isInline(node);
  }
  return runs;
}

/**
 * @param {readonly Cell[][]} rows
 * @param {boolean} hasHead
 * @param {Lose} lose
 */
function loseHeaders(rows, hasHead, lose) {
  const isLost = rows.some((row, index) => row.some(cell => cell.header !== (hasHead && index === 0 ? 1 : 0)));
  if (isLost) lose('headers of rows');
  if (hasHead && rows.length > 1 && rows[0].every(cell => cell.text === '')) lose('heads of tables without text');
}

/**
 * The alignment of each column, as its first cell has it.
 * @param {readonly Cell[][]} rows
 * @param {number} columns
 * @param {Lose} lose
 */
function alignmentsOf(rows, columns, lose) {
  const alignments = Array.from({ length: columns }, (_, column) => {
    const alignment = rows.find(row => row.length > column)?.[column].alignment ?? '';
    return alignment in dashes ? alignment : '';
  });
  if (rows.some(row => row.some((cell, column) => cell.alignment !== alignments[column]))) lose('alignment');
  return alignments;
}
