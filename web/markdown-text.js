// Runs of inline content written as lines of Markdown.
import {
  codeSpan, destination, escaped, isMark, isWhite, isWord, numbered, wholeLine, withEdges,
} from './markdown-escape.js';
import { BOLD, ITALIC, STRIKE } from './markdown-runs.js';

/** @typedef {import('./markdown-runs.js').Run} Run */
/** @typedef {(what: string) => void} Lose */

/**
 * A piece of a line: a delimiter that opens or closes a format; a text; something written whole, as a link; a break.
 * @typedef {{ kind: 'open' | 'close', mark: string, bit: number }} Delimiter
 * @typedef {Delimiter | { kind: 'text' | 'whole', text: string, isLink?: boolean } | { kind: 'break' }} Piece
 */

const order = [BOLD, ITALIC, STRIKE];
const marks = new Map([[BOLD, '**'], [ITALIC, '*'], [STRIKE, '~~']]);

/**
 * The lines of runs that are settled, with a backslash before each break.
 * @param {readonly Run[]} runs
 * @param {Lose} lose
 * @returns {string[]}
 */
export function linesOf(runs, lose) {
  return written(runs, 0, lose).map(line => wholeLine(line, lose)).join('\\\n').split('\n');
}

/**
 * The one line of settled runs without breaks, as it stands in a heading or a cell, where nothing begins a block.
 * @param {readonly Run[]} runs
 * @param {Lose} lose
 * @param {string} [tick] how a backtick is written that begins no code
 */
export const lineOf = (runs, lose, tick) => withEdges(written(runs, 0, lose, tick).join(' '), lose);

/**
 * @param {readonly Run[]} runs
 * @param {number} outer the formats that are open around them
 * @param {Lose} lose
 * @param {string} [tick]
 */
function written(runs, outer, lose, tick = '\\`') {
  const pieces = piecesOf(runs, outer, lose, tick);
  chooseMarks(pieces);
  const lines = [''];
  /** @type {string[]} */
  let texts = [];
  pieces.forEach((piece, index) => {
    if (piece.kind === 'break') {
      lines[lines.length - 1] = texts.join('');
      texts = [];
      lines.push('');
    } else if (piece.kind === 'text') {
      texts.push(besides(pieces, index, piece.text, lose).replaceAll('`', tick));
    }
    else texts.push('mark' in piece ? piece.mark : piece.text);
  });
  lines[lines.length - 1] = texts.join('');
  return lines;
}

/**
 * Runs with delimiters between them, which are nested: what lasts longest is opened first.
 * @param {readonly Run[]} runs
 * @param {number} outer
 * @param {Lose} lose
 * @param {string} tick
 * @returns {Piece[]}
 */
function piecesOf(runs, outer, lose, tick) {
  const ends = endsOf(runs);
  /** @type {Piece[]} */
  const pieces = [];
  /** @type {number[]} */
  const open = [];
  const change = (/** @type {number} */ format, /** @type {number} */ index) => {
    while (open.some(bit => !(format & bit))) close(pieces, /** @type {number} */ (open.pop()));
    const missing = order.filter(bit => format & bit & ~outer && !open.includes(bit));
    const lasts = (/** @type {number} */ bit) => ends[index][order.indexOf(bit)];
    for (const bit of missing.sort((one, other) => lasts(other) - lasts(one))) {
      open.push(bit);
      pieces.push({ kind: 'open', mark: /** @type {string} */ (marks.get(bit)), bit });
    }
  };
  runs.forEach((run, index) => {
    change(run.format, index);
    pieces.push(pieceOf(run, lose, tick));
  });
  while (open.length > 0) close(pieces, /** @type {number} */ (open.pop()));
  return pieces;
}

/**
 * @param {Piece[]} pieces
 * @param {number} bit
 */
function close(pieces, bit) {
  pieces.push({ kind: 'close', mark: /** @type {string} */ (marks.get(bit)), bit });
}

/**
 * Where each format ends that a run has.
 * @param {readonly Run[]} runs
 * @returns {number[][]}
 */
function endsOf(runs) {
  const ends = new Array(runs.length);
  let next = [0, 0, 0];
  for (let index = runs.length - 1; index >= 0; index -= 1) {
    next = order.map((bit, at) => runs[index].format & bit ? next[at] || index + 1 : 0);
    ends[index] = next;
  }
  return ends;
}

/**
 * @param {Run} run
 * @param {Lose} lose
 * @param {string} tick
 * @returns {Piece}
 */
function pieceOf(run, lose, tick) {
  if (run.kind === 'text') return { kind: 'text', text: run.text };
  if (run.kind === 'code') return { kind: 'whole', text: codeSpan(run.text, lose) };
  if (run.kind === 'break') return { kind: 'break' };
  if (run.kind === 'embed') return { kind: 'whole', text: `![]${destination(run.address, null)}` };
  const lines = written(run.runs, run.format, lose, tick);
  const inside = lines.map((line, index) => index === 0 ? line : wholeLine(line, lose));
  return { kind: 'whole', text: `[${inside.join('\\\n')}]${destination(run.address, run.title)}`, isLink: true };
}

/**
 * Italics with `_` where they touch the delimiters of bold: with `*` these would be one.
 * @param {Piece[]} pieces
 */
function chooseMarks(pieces) {
  /** @type {Delimiter | null} */
  let opened = null;
  let touches = false;
  pieces.forEach((piece, index) => {
    if (!('bit' in piece) || piece.bit !== ITALIC) return;
    const near = [pieces[index - 1], pieces[index + 1]].some(other => other && 'bit' in other && other.bit === BOLD);
    if (piece.kind === 'open') {
      opened = piece;
      touches = near;
    } else if (opened !== null && (touches || near)) {
      opened.mark = piece.mark = '_';
    }
  });
}

/**
 * A text, with the characters beside delimiters by their numbers, where these wouldn't be read as delimiters.
 * @param {readonly Piece[]} pieces
 * @param {number} index
 * @param {string} text
 * @param {Lose} lose
 */
function besides(pieces, index, text, lose) {
  const [before, after] = [pieces[index - 1], pieces[index + 1]];
  const first = String.fromCodePoint(/** @type {number} */ (text.codePointAt(0)));
  const last = /[\ud800-\udbff][\udc00-\udfff]$|[^]$/.exec(text)?.[0] ?? '';
  const isBefore = before !== undefined && 'bit' in before
    && (before.kind === 'open' ? first.trim() === '' : hides(before, pieces, index - 2, first));
  const isAfter = after !== undefined && 'bit' in after
    && (after.kind === 'close' ? last.trim() === '' : hides(after, pieces, index + 2, last));
  const isBoth = isBefore && isAfter && text.length === first.length;
  const start = isBefore ? first.length : 0;
  const end = text.length - (isAfter && !isBoth ? last.length : 0);
  const beforeLink = after?.kind === 'whole' && after.isLink === true;
  return (isBefore ? numbered(first, lose) : '') + escaped(text.slice(start, end), beforeLink)
    + (isAfter && !isBoth ? numbered(last, lose) : '');
}

/**
 * Whether a delimiter isn't read beside a character outside it.
 * @param {Delimiter} delimiter
 * @param {readonly Piece[]} pieces
 * @param {number} index that of what is inside
 * @param {string} outside
 */
function hides(delimiter, pieces, index, outside) {
  if (isWhite(outside) || isMark(outside)) return false;
  const inside = pieces[index];
  if (delimiter.mark === '_' || inside?.kind !== 'text') return true;
  const isStart = delimiter.kind === 'open';
  const near = isStart ? String.fromCodePoint(inside.text.codePointAt(0) ?? 0) : inside.text.slice(-1);
  const beyond = pieces[isStart ? index + 1 : index - 1]; // beside it a sole character may get a number, with `&`
  return !isWord(near) || (near === inside.text && beyond?.kind === delimiter.kind);
}
