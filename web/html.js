// HTML from elsewhere to a slice that the core pastes, and a slice or a document to HTML.
import { wellFormed } from './html-nodes.js';
import { parsable, parserHere } from './html-parse.js';
import { Reader } from './html-read.js';

export { htmlFromDocument } from './html-write.js';

/** @typedef {import('./html.js').Slice} Slice */

/**
 * @param {string} html
 * @param {import('./html.js').ReadingOptions} [options]
 * @returns {Promise<Slice> | Slice}
 */
export function sliceFromHtml(html, options = {}) {
  const { parse } = options;
  if (typeof html !== 'string') throw new TypeError('HTML is a string');
  if (parse !== undefined && typeof parse !== 'function') throw new TypeError('`parse` is a function');
  const text = wellFormed(parsable(html));
  const parser = parse ?? parserHere();
  return typeof parser === 'function' ? sliceOf(parser(text)) : parser.then(found => sliceOf(found(text)));
}

/**
 * @param {import('./html.js').ParsedNode} document
 * @returns {Slice}
 */
function sliceOf(document) {
  const nodes = /** @type {import('./replies.js').DocumentNode[]} */ (new Reader().read(document));
  return { namespace: 'lexical-core', nodes };
}
