// Inline content of Markdown, as markdown-it parses it: tokens become runs, and runs become nodes.
import { BOLD, CODE, ITALIC, STRIKE, settled } from './markdown-runs.js';
import { isSafeAddress } from './safe.js';

/** @typedef {import('./markdown-parser.js').Token} Token */
/** @typedef {import('./markdown-runs.js').Run} Run */
/** @typedef {import('./markdown-making.js').Making} Making */
/** @typedef {import('./replies.js').DocumentNode} DocumentNode */

/** @type {Record<string, number>} */
const formats = { strong: BOLD, em: ITALIC, s: STRIKE };

/**
 * The nodes of inline tokens.
 * @param {readonly Token[]} tokens
 * @param {Making} making
 * @param {boolean} [isCell] in cells `\|` stands for `|`, also in code
 * @returns {DocumentNode[]}
 */
export function inlinesOf(tokens, making, isCell = false) {
  return nodesOf(settled(runsOf(tokens, making, isCell)), making);
}

/**
 * @param {readonly Token[]} tokens
 * @param {Making} making
 * @param {boolean} isCell
 * @returns {Run[]}
 */
function runsOf(tokens, making, isCell) {
  /** @type {Run[]} */
  const outer = [];
  let runs = outer;
  /** @type {Record<string, number>} */
  const open = { strong: 0, em: 0, s: 0 }; // how many of each are open
  let format = 0;
  const add = (/** @type {string} */ text) => { runs.push({ kind: 'text', text, format }); };
  for (const token of tokens) {
    if (Object.hasOwn(open, token.tag)) {
      open[token.tag] += token.nesting;
      format = open[token.tag] > 0 ? format | formats[token.tag] : format & ~formats[token.tag];
    } else if (token.type === 'softbreak') add(' ');
    else if (token.type === 'hardbreak') runs.push({ kind: 'break', format });
    else if (token.type === 'code_inline') {
      runs.push({ kind: 'code', text: codeOf(token, isCell && making.leavesBars), format });
    } else if (token.type === 'image') runs.push(...imageOf(token, format, making));
    else if (token.type === 'link_open') {
      const link = linkOf(token, making);
      if (link === null) continue;
      outer.push(link);
      runs = link.runs;
    } else if (token.type === 'link_close') {
      if (runs !== outer && runs.length === 0) {
        outer.pop();
        making.lose('links without text');
      }
      runs = outer;
    } else if (token.content !== '') add(token.content);
  }
  return outer;
}

/**
 * The text of code. Around one with U+2028 or U+2029 markdown-it leaves the two spaces that belong to the backticks.
 * @param {Token} token
 * @param {boolean} leavesBars
 */
function codeOf({ content }, leavesBars) {
  const text = /[\u2028\u2029]/.test(content) ? content.replace(/^ ([^]+) $/, '$1') : content;
  return leavesBars ? text.replaceAll('\\|', '|') : text;
}

/**
 * @param {Token} token
 * @param {Making} making
 * @returns {import('./markdown-runs.js').LinkRun | null}
 */
function linkOf(token, making) {
  const address = token.attrGet('href') ?? '';
  if (isSafeAddress(address)) {
    return { kind: 'link', address, title: token.attrGet('title') || null, runs: [], format: 0 };
  }
  making.lose('links with unsafe addresses');
  return null;
}

/**
 * An embed of the image's address, or its description where that isn't safe.
 * @param {Token} token
 * @param {number} format
 * @param {Making} making
 * @returns {Run[]}
 */
function imageOf(token, format, making) {
  const address = token.attrGet('src') ?? '';
  const text = (token.children ?? []).map(child => describe(child)).join('');
  if (token.attrGet('title')) making.lose('titles of images');
  if (isSafeAddress(address)) {
    if (text !== '') making.lose('descriptions of images');
    return [{ kind: 'embed', address, format }];
  }
  making.lose('images with unsafe addresses');
  return text === '' ? [] : [{ kind: 'text', text, format }];
}

/**
 * Images in a description nest at most as brackets do.
 * @param {Token} token
 * @returns {string}
 */
function describe(token) {
  if (token.type === 'image') return (token.children ?? []).map(describe).join('');
  return token.type === 'softbreak' || token.type === 'hardbreak' ? ' ' : token.content;
}

/**
 * @param {readonly Run[]} runs
 * @param {Making} making
 * @returns {DocumentNode[]}
 */
function nodesOf(runs, making) {
  return runs.flatMap(run => {
    if (run.kind === 'break') return [making.node({ type: 'linebreak', version: 1 })];
    if (run.kind === 'embed') return [making.node({ type: 'embed', src: run.address, version: 1 }, run.address)];
    if (run.kind !== 'link') return textNodes(run.text, run.kind === 'code' ? run.format | CODE : run.format, making);
    const children = nodesOf(run.runs, making);
    const link = making.element('link', children, { url: run.address, rel: null, target: null, title: run.title });
    making.count(run.address + (run.title ?? ''));
    return [link];
  });
}

/**
 * A text, with nodes of their own for its tabs.
 * @param {string} text
 * @param {number} format
 * @param {Making} making
 * @returns {DocumentNode[]}
 */
export function textNodes(text, format, making) {
  return text.split(/(\t)/).filter(piece => piece !== '').map(piece => {
    if (piece === '\t') {
      return making.node({ type: 'tab', text: '\t', format, style: '', detail: 2, mode: 'normal', version: 1 }, piece);
    }
    return making.node({ type: 'text', text: piece, format, style: '', detail: 0, mode: 'normal', version: 1 }, piece);
  });
}
