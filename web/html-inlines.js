// A line of inline nodes as HTML.
import { ContentError } from './content-error.js';
import { BOLD, CODE, HIGHLIGHT, ITALIC, STRIKE, SUB, SUPER, UNDERLINE } from './html-style.js';
import { relOf } from './html-link.js';
import { numberIn, stringIn } from './html-values.js';
import { isSafeAddress, safeStyle } from './safe.js';

/** @typedef {import('./html-values.js').Values} Values */
/** @typedef {Values & { type: string }} Node */
/** @typedef {{ schemes: readonly string[], styles: readonly string[], parts: string[] }} Writer */

/** Outermost first. */
const tags = /** @type {const} */ ([
  [BOLD, 'strong'], [ITALIC, 'em'], [UNDERLINE, 'u'], [STRIKE, 's'],
  [HIGHLIGHT, 'mark'], [SUB, 'sub'], [SUPER, 'sup'], [CODE, 'code'],
]);

/**
 * @param {Writer} writer
 * @param {Node[]} inlines
 * @param {(node: Values) => Node[]} childrenOf
 */
export function writeInlines(writer, inlines, childrenOf) {
  const leaves = inlines.flatMap(node => (node.type === 'link' ? childrenOf(node) : [node]));
  const kept = keptSpaces(leaves);
  for (const node of inlines) {
    if (node.type !== 'link') writeLeaf(writer, node, kept);
    else writeLink(writer, node, childrenOf(node), kept);
  }
  if (leaves.at(-1)?.type === 'linebreak') writer.parts.push('<br>'); // the last one shows nothing
}

/**
 * The texts whose white space a browser would collapse: with more than single spaces between words.
 * @param {Node[]} leaves
 */
function keptSpaces(leaves) {
  const kept = new Set();
  let isBehindSpace = true;
  leaves.forEach((leaf, at) => {
    if (leaf.type !== 'text') {
      isBehindSpace = leaf.type === 'linebreak';
      return;
    }
    const text = stringIn(leaf, 'text');
    if (text === '') return;
    const next = leaves[at + 1];
    const isLast = next === undefined || next.type === 'linebreak';
    const isAtEdge = (isBehindSpace && text.startsWith(' ')) || (isLast && text.endsWith(' '));
    const isOdd = isAtEdge || /[\t\n\r\f]| {2}/.test(text);
    if (isOdd) kept.add(leaf);
    isBehindSpace = !isOdd && text.endsWith(' ');
  });
  return kept;
}

/**
 * @param {Writer} writer
 * @param {Node} link
 * @param {Node[]} children
 * @param {Set<Node>} kept
 */
function writeLink(writer, link, children, kept) {
  const url = stringIn(link, 'url');
  const isSafe = url !== '' && isSafeAddress(url, writer.schemes);
  const target = stringIn(link, 'target');
  const rel = relOf(stringIn(link, 'rel') || null, target || null) ?? '';
  const attributes = Object.entries({ href: url, target, rel, title: stringIn(link, 'title') });
  if (isSafe) {
    const told = attributes.filter(([, value]) => value !== '').map(([name, value]) => ` ${name}="${escaped(value)}"`);
    writer.parts.push(`<a${told.join('')}>`);
  }
  for (const child of children) writeLeaf(writer, child, kept);
  if (isSafe) writer.parts.push('</a>');
}

/**
 * @param {Writer} writer
 * @param {Node} node
 * @param {Set<Node>} kept
 */
function writeLeaf(writer, node, kept) {
  if (node.type === 'linebreak') writer.parts.push('<br>');
  else if (node.type === 'embed') writeEmbed(writer, node);
  else if (node.type === 'text') writeText(writer, node, stringIn(node, 'text'), kept.has(node));
  else if (node.type === 'tab') writeText(writer, node, '\t', true);
  else throw new ContentError('document', `a ${node.type} in a line`);
}

/**
 * @param {Writer} writer
 * @param {Node} node
 */
function writeEmbed(writer, node) {
  const src = stringIn(node, 'src');
  if (!isSafeAddress(src, writer.schemes)) return;
  writer.parts.push(`<span data-lexical-decorator="true" data-src="${escaped(src)}"></span>`);
}

/**
 * @param {Writer} writer
 * @param {Node} node
 * @param {string} text
 * @param {boolean} keepsSpaces
 */
function writeText(writer, node, text, keepsSpaces) {
  if (text === '') return;
  const format = numberIn(node, 'format', 0, 65_535, 0);
  const styles = [safeStyle(stringIn(node, 'style'), writer.styles), keepsSpaces ? 'white-space: pre-wrap' : ''];
  const style = styles.filter(Boolean).join('; ');
  const names = tags.filter(([bit]) => format & bit).map(([, name]) => name);
  const opened = names.map(name => `<${name}>`).join('');
  const closed = [...names].reverse().map(name => `</${name}>`).join('');
  const inner = style === '' ? escaped(text) : `<span style="${escaped(style)}">${escaped(text)}</span>`;
  writer.parts.push(opened, inner, closed);
}

/** @param {string} text */
export function escaped(text) {
  return text.replace(/[&<>"\r\u0000\u00a0]/g, character => characters.get(character) ?? character);
}

const characters = new Map([
  ['&', '&amp;'], ['<', '&lt;'], ['>', '&gt;'], ['"', '&quot;'],
  ['\r', '&#13;'], ['\u0000', '\ufffd'], ['\u00a0', '&nbsp;'],
]);
