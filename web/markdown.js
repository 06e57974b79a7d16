// Documents as Markdown, and Markdown as documents: CommonMark, with GitHub's check lists, tables and strikethrough.
import { Making } from './markdown-making.js';
import { tokensOf } from './markdown-parser.js';
import { BlockReader } from './markdown-read.js';
import { writtenBlocks } from './markdown-write.js';

/** @typedef {import('./replies.js').Document} Document */
/** @typedef {import('./replies.js').Slice} Slice */

/**
 * The document of a text, and what the text has that a document has no place for. HTML stays text.
 * @param {string} text
 * @returns {Promise<{ document: Document, lost: string[] }>}
 */
export async function documentFromMarkdown(text) {
  if (typeof text !== 'string') throw new TypeError('Markdown is a string');
  const whole = text.replace(/[\ud800-\udbff](?![\udc00-\udfff])|(?<![\ud800-\udbff])[\udc00-\udfff]/g, '\ufffd');
  const { tokens, lines, leavesBars } = await tokensOf(whole);
  const making = new Making(leavesBars);
  if (whole !== text || text.includes('\0')) making.lose('characters that are none: they became U+FFFD');
  const children = new BlockReader(tokens, lines, making).blocks();
  if (children.length === 0) children.push(making.element('paragraph', [], { textFormat: 0, textStyle: '' }));
  const root = { type: /** @type {const} */ ('root'), children, direction: null, format: '', indent: 0, version: 1 };
  return { document: { root: /** @type {Document['root']} */ (root) }, lost: making.lost };
}

/**
 * The Markdown of a document or a slice, and what it has that Markdown has no form for.
 * @param {Document | Slice} document
 * @returns {{ markdown: string, lost: string[] }}
 */
export function markdownFromDocument(document) {
  /** @type {Set<string>} */
  const lost = new Set();
  const lines = writtenBlocks(document, what => { lost.add(what); });
  return { markdown: lines.length === 0 ? '' : `${lines.join('\n')}\n`, lost: [...lost] };
}
