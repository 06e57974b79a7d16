// The parser that Markdown is read with: markdown-it, looked up when it is needed.
import { ContentError } from './content-error.js';

/**
 * As much of a token of markdown-it as is read.
 * @typedef {{
 *   type: string, tag: string, nesting: number, level: number, content: string, info: string,
 *   children: Token[] | null, map: [number, number] | null, meta: any, attrGet(name: string): string | null,
 * }} Token
 */

const LONGEST = 16_777_216; // characters of a text: no document of a longer one fits in a line
const LINES = 131_072; // that aren't blank: a document of so many has no room for what they make
const PIECES = 262_144; // of inline content: texts, breaks, and markers that may be those of a format
const CELLS = 8_192; // of a table: each is two nodes of a document, which has at most 16,384
const BLOCKS = 150; // levels that quotes, lists and items nest: two for each list
const PARENTHESES = 32; // in an address without `<` and `>`, one in another
const BRACKETS = 20; // levels of brackets in a text that are looked into, which may be those of a link
/** @type {Promise<{ parser: any, leavesBars: boolean }> | null} */
let found = null;

/**
 * The tokens of a text and its lines, and whether the parser leaves `\|` as it is in code in a cell, as old ones do.
 * @param {string} text
 * @returns {Promise<{ tokens: Token[], lines: string[], leavesBars: boolean }>}
 */
export async function tokensOf(text) {
  if (text.length > LONGEST) throw new ContentError('size', `the text has more than ${LONGEST} characters`);
  const lines = text.split(/\r\n?|\n/);
  if (lines.length > LINES && lines.filter(line => /\S/.test(line)).length > LINES) {
    throw new ContentError('size', `the text has more than ${LINES} lines that aren't blank`);
  }
  found ??= newParser();
  const { parser, leavesBars } = await found.catch(cause => {
    found = null;
    throw new ContentError('parser', 'there is no markdown-it to read Markdown with', cause);
  });
  /** @type {Token[]} */
  const tokens = parser.parse(text, { pieces: 0 });
  if (tokens.some(token => token.nesting === 1 && token.level >= BLOCKS - 1)) {
    throw new ContentError('depth', `quotes and lists nest deeper than ${BLOCKS} levels`);
  }
  return { tokens, lines, leavesBars };
}

async function newParser() {
  const MarkdownIt = await constructorOf();
  const parser = new MarkdownIt('commonmark', { html: false });
  parser.enable(['table', 'strikethrough']);
  boundTables(parser.block.ruler);
  boundPieces(parser.inline);
  boundBrackets(parser.inline.ruler);
  boundLinks(parser.helpers);
  parser.validateLink = () => true; // addresses are looked at where links are made
  parser.normalizeLink = parser.normalizeLinkText = (/** @type {string} */ address) => address;
  parser.core.ruler.before('block', 'nest_blocks', () => { parser.options.maxNesting = BLOCKS; });
  parser.core.ruler.before('inline', 'checks', (/** @type {{ tokens: Token[] }} */ state) => {
    parser.options.maxNesting = BRACKETS;
    findChecks(state.tokens);
  });
  return { parser, leavesBars: parser.render('|`\\|`|\n|-|').includes('\\|') };
}

/** Of a package in a page, or beside this one in node, or where NODE_PATH says. */
async function constructorOf() {
  try {
    // @ts-ignore: it need not be there
    return (await import('markdown-it')).default;
  } catch (error) {
    if (typeof process === 'undefined' || !process.versions?.node) throw error;
    const name = 'node:module'; // so that bundlers for a page don't look for it
    const { createRequire } = await import(name);
    const made = createRequire(import.meta.url)('markdown-it');
    return made.default ?? made;
  }
}

/**
 * Stops a table with more cells than a document may have: its short rows are filled up, so few lines can make millions.
 * @param {any} ruler
 */
function boundTables(ruler) {
  const { fn, alt } = ruleOf(ruler, 'table');
  ruler.at('table', (/** @type {any} */ state, /** @type {unknown[]} */ ...rest) => {
    let cells = 0;
    state.push = (/** @type {string} */ type, /** @type {unknown[]} */ ...more) => {
      if (type === 'td_open') cells += 1;
      if (cells > CELLS) throw new ContentError('size', `a table has more than ${CELLS} cells`);
      return Object.getPrototypeOf(state).push.call(state, type, ...more);
    };
    try {
      return fn(state, ...rest);
    } finally {
      delete state.push;
    }
  }, { alt: alt.slice() });
}

/**
 * A rule of the parser, and the names of the rules that it may end.
 * @param {any} ruler
 * @param {string} name
 * @returns {{ fn: (state: any, ...rest: unknown[]) => boolean, alt: string[] }}
 */
function ruleOf(ruler, name) {
  return ruler.__rules__.find((/** @type {{ name: string }} */ rule) => rule.name === name);
}

/**
 * Stops a text with more inline content than a document has room for: each marker is a token until it is known to
 * be text.
 * @param {any} inline
 */
function boundPieces(inline) {
  inline.State = class extends inline.State {
    /** @param {unknown[]} words */
    push(...words) {
      this.env.pieces = (this.env.pieces ?? 0) + 1;
      if (this.env.pieces > PIECES) throw new ContentError('size', `the text has more than ${PIECES} inline pieces`);
      return super.push(...words);
    }
  };
}

/**
 * Tries no address in `<` and `>` and no link or image where its end is missing: old parsers look for it anew, up to
 * the end of the text, at each `<` and `[`.
 * @param {any} ruler
 */
function boundBrackets(ruler) {
  const autolink = ruleOf(ruler, 'autolink').fn;
  const end = /[<>\0-\x20]/g; // what an address doesn't have
  ruler.at('autolink', (/** @type {any} */ state, /** @type {unknown[]} */ ...rest) => {
    if (state.src[state.pos] !== '<') return false;
    end.lastIndex = state.pos + 1;
    return end.exec(state.src)?.[0] === '>' && autolink(state, ...rest);
  });
  for (const name of ['link', 'image']) {
    const { fn } = ruleOf(ruler, name);
    /** @type {WeakMap<object, number>} */
    const lastEnds = new WeakMap(); // where the last `]` of a text is
    ruler.at(name, (/** @type {any} */ state, /** @type {unknown[]} */ ...rest) => {
      const last = lastEnds.get(state) ?? state.src.lastIndexOf(']');
      lastEnds.set(state, last);
      return last > state.pos && fn(state, ...rest);
    });
  }
}

/**
 * Stops looking for the end of an address or a title where there is none: old parsers go to the end of the text.
 * @param {any} helpers
 */
function boundLinks(helpers) {
  const { parseLinkDestination, parseLinkTitle } = helpers;
  const none = { ok: false, pos: 0, lines: 0, str: '' };
  helpers.parseLinkDestination = (/** @type {string} */ text, /** @type {number} */ at, /** @type {number} */ end) => {
    const isQuoted = text[at] === '<';
    for (let level = 0, next = isQuoted ? at + 1 : at; next < end; next += 1) {
      const code = text.charCodeAt(next);
      if (code === 0x5c) next += 1; // a backslash
      else if (isQuoted ? code === 0x3e : code <= 0x20) break;
      else if (isQuoted ? code === 0x3c : code === 0x28 && (level += 1) > PARENTHESES) return none;
      else if (code === 0x29) level -= 1;
    }
    return parseLinkDestination(text, at, end);
  };
  helpers.parseLinkTitle = (/** @type {string} */ text, /** @type {number} */ at, /** @type {number} */ end) => {
    for (let next = at + 1; text[at] === '(' && next < end && text[next] !== ')'; next += 1) {
      if (text[next] === '\\') next += 1;
      else if (text[next] === '(') return none;
    }
    return parseLinkTitle(text, at, end);
  };
}

/**
 * Takes `[ ]` and `[x]` at the start of items, and tells them in the meta of the item's token.
 * @param {Token[]} tokens
 */
function findChecks(tokens) {
  for (let index = 0; index + 2 < tokens.length; index += 1) {
    const inline = tokens[index + 2];
    if (tokens[index].type !== 'list_item_open' || tokens[index + 1].type !== 'paragraph_open') continue;
    const check = /^\[([ xX])\](?:[ \t\n]+|$)/.exec(inline.content);
    if (check === null) continue;
    tokens[index].meta = { checked: check[1] !== ' ' };
    inline.content = inline.content.slice(check[0].length);
  }
}
