// Blocks of Markdown, as markdown-it parses them, become nodes.
import { inlinesOf, textNodes } from './markdown-inline.js';
import { blocksOf, itemsOf } from './markdown-items.js';
import { CODE } from './markdown-runs.js';
import { tableOf } from './markdown-table-read.js';

/** @typedef {import('./markdown-parser.js').Token} Token */
/** @typedef {import('./markdown-making.js').Making} Making */
/** @typedef {import('./replies.js').DocumentNode} DocumentNode */

const LARGEST_START = 1_000_000; // number of a list's first item

/** Reads the tokens of a text in order, and calls itself for what is in quotes and lists: their levels are bounded. */
export class BlockReader {
  #tokens;
  #lines;
  #making;
  #at = 0;
  #lists = 0;

  /**
   * @param {readonly Token[]} tokens
   * @param {readonly string[]} lines
   * @param {Making} making
   */
  constructor(tokens, lines, making) {
    this.#tokens = tokens;
    this.#lines = lines;
    this.#making = making;
  }

  /**
   * The blocks up to a token of a type, which is passed.
   * @param {string} [end]
   * @returns {DocumentNode[]}
   */
  blocks(end) {
    /** @type {DocumentNode[]} */
    const blocks = [];
    while (this.#at < this.#tokens.length) {
      const token = this.#tokens[this.#at++];
      if (token.type === end) break;
      for (const block of this.#block(token)) blocks.push(block);
    }
    return blocks;
  }

  /**
   * @param {Token} token
   * @returns {DocumentNode[]}
   */
  #block(token) {
    const making = this.#making;
    switch (token.type) {
      case 'paragraph_open': {
        const children = this.#inline('paragraph_close');
        return children.length === 0 ? [] : [making.element('paragraph', children, { textFormat: 0, textStyle: '' })];
      }
      case 'heading_open': return [making.element('heading', this.#inline('heading_close'), { tag: token.tag })];
      case 'blockquote_open': return this.#quotes(this.blocks('blockquote_close'));
      case 'bullet_list_open': return [this.#list(token, 'bullet')];
      case 'ordered_list_open': return [this.#list(token, 'number')];
      case 'hr': return [making.node({ type: 'horizontalrule', version: 1 })];
      case 'table_open': return [this.#table(token)];
      default: return this.#code(token);
    }
  }

  /** @param {string} end */
  #inline(end) {
    const { children } = this.#tokens[this.#at];
    while (this.#tokens[this.#at].type !== end) this.#at += 1;
    this.#at += 1;
    return inlinesOf(children ?? [], this.#making);
  }

  /**
   * A paragraph of code, with a break for each line end but the last.
   * @param {Token} token
   */
  #code(token) {
    const making = this.#making;
    if (token.info.trim() !== '') making.lose('languages of code blocks');
    if (token.content.trim() === '') {
      making.lose('code blocks without code');
      return [];
    }
    const children = token.content.replace(/\n$/, '').split('\n').flatMap((line, index) => {
      const texts = textNodes(line, CODE, making);
      return index === 0 ? texts : [making.node({ type: 'linebreak', version: 1 }), ...texts];
    });
    return [making.element('paragraph', children, { textFormat: 0, textStyle: '' })];
  }

  /**
   * A quote around blocks: its only paragraph stands for itself. Quotes in it become part of it, and tables and rules
   * stand between two quotes.
   * @param {DocumentNode[]} blocks
   * @returns {DocumentNode[]}
   */
  #quotes(blocks) {
    /** @type {DocumentNode[]} */
    const made = [];
    /** @type {DocumentNode[]} */
    let within = [];
    const close = () => {
      if (within.length > 0 || blocks.length === 0) made.push(this.#quote(within));
      within = [];
    };
    for (const block of blocks) {
      if (block.type === 'table' || block.type === 'horizontalrule') {
        this.#making.lose('quotes around tables and rules');
        close();
        made.push(block);
      } else if (block.type === 'quote') {
        this.#making.lose('quotes in quotes');
        for (const inner of blocksOf(block, this.#making)) within.push(inner);
      } else {
        within.push(block);
      }
    }
    close();
    return made;
  }

  /** @param {DocumentNode[]} blocks */
  #quote(blocks) {
    const [only] = blocks;
    return this.#making.element('quote', blocks.length === 1 && only.type === 'paragraph' ? only.children : blocks);
  }

  /**
   * A list, which is one of checks if any item has a check.
   * @param {Token} token
   * @param {'bullet' | 'number'} listType
   * @returns {DocumentNode}
   */
  #list(token, listType) {
    const first = Number(token.attrGet('start') ?? 1);
    const start = Math.min(first, LARGEST_START);
    if (first > start) this.#making.lose('numbers above 1,000,000');
    let hasChecks = false;
    /** @type {DocumentNode[]} */
    const items = [];
    this.#lists += 1;
    for (let open = this.#tokens[this.#at++]; open.type === 'list_item_open'; open = this.#tokens[this.#at++]) {
      hasChecks ||= open.meta !== null;
      const blocks = this.blocks('list_item_close');
      for (const item of itemsOf(blocks, open.meta?.checked, this.#lists, this.#making)) items.push(item);
    }
    this.#lists -= 1;
    const type = hasChecks && listType === 'bullet' ? 'check' : listType;
    return this.#making.element('list', items, { listType: type, start, tag: type === 'number' ? 'ol' : 'ul' });
  }

  /** @param {Token} open */
  #table(open) {
    const start = this.#at;
    while (this.#tokens[this.#at].type !== 'table_close') this.#at += 1;
    const [first, end] = /** @type {[number, number]} */ (open.map);
    return tableOf(this.#tokens.slice(start, this.#at++), this.#lines.slice(first, end), this.#making);
  }
}
