// One line of inline nodes as it is read, with white space collapsed as a browser does it.
import { breakNode, element, tabNode, textNode } from './html-nodes.js';

/** @typedef {import('./html-nodes.js').Node} Node */
/** @typedef {import('./html-nodes.js').Element} Element */
/** @typedef {import('./html-nodes.js').Budget} Budget */
/** @typedef {{ url: string, rel: string | null, target: string | null, title: string | null }} Link */
/** @typedef {{ format: number, link: Link | null }} Look */

export class Line {
  /** @type {Node[]} */
  #nodes = [];
  /** @type {Link | null} */
  #link = null;
  /** @type {Element | null} the node of that link, which is the last one */
  #linkNode = null;
  #isAtStart = true;
  #endsWithSpace = false; // of the kind that goes at the end of a line
  #hasBreak = false;
  #budget;

  /** @param {Budget} budget */
  constructor(budget) {
    this.#budget = budget;
  }

  /** Whether there is anything to show: a line with nothing but a break is an empty one. */
  get isShown() {
    return this.#nodes.length > 0 || this.#hasBreak;
  }

  /**
   * @param {string} text
   * @param {Look} look
   * @param {'normal' | 'lines' | 'all'} spaces
   */
  addText(text, look, spaces) {
    if (spaces === 'normal') {
      this.#addCollapsed(text, look);
      return;
    }
    for (const part of text.split(spaces === 'all' ? /(\r\n|[\n\r\t])/ : /(\r\n|[\n\r])/)) {
      if (part === '\t') this.addTab(look);
      else if (/^[\r\n]/.test(part)) this.addBreak(look);
      else if (spaces === 'lines') this.#addCollapsed(part, look);
      else this.#append(part, look);
    }
  }

  /** @param {Look} look */
  addTab(look) {
    this.#addNode(tabNode(look.format), look);
  }

  /** @param {Look} look */
  addBreak(look) {
    this.#trim();
    this.#addNode(breakNode(), look);
    this.#isAtStart = true;
    this.#hasBreak = true;
  }

  /**
   * @param {string} src
   * @param {Look} look
   */
  addEmbed(src, look) {
    this.#budget.takeText(src);
    this.#addNode({ type: 'embed', src, version: 1 }, look);
  }

  /** The nodes of the line, without the break that ends it. */
  end() {
    this.#trim();
    const list = this.#lastList();
    if (list.at(-1)?.type === 'linebreak') list.pop();
    this.#dropEmptyLink();
    return this.#nodes;
  }

  /**
   * @param {string} text
   * @param {Look} look
   */
  #addCollapsed(text, look) {
    const collapsed = text.replace(/[ \t\n\r\f]+/g, ' ');
    const isDropped = collapsed.startsWith(' ') && (this.#isAtStart || this.#endsWithSpace);
    const shown = isDropped ? collapsed.slice(1) : collapsed;
    if (shown === '') return;
    this.#append(shown, look);
    this.#endsWithSpace = shown.endsWith(' ');
  }

  /**
   * @param {string} text
   * @param {Look} look
   */
  #append(text, look) {
    if (text === '') return;
    this.#budget.takeText(text);
    const last = this.#listFor(look.link).at(-1);
    if (last?.type === 'text' && last.format === look.format) {
      last.text += text;
      this.#isAtStart = this.#endsWithSpace = false;
    } else {
      this.#addNode(textNode(text, look.format), look);
    }
  }

  /**
   * @param {Node} node
   * @param {Look} look
   */
  #addNode(node, look) {
    this.#budget.takeNodes(1);
    this.#listFor(look.link).push(node);
    this.#isAtStart = this.#endsWithSpace = false;
  }

  /**
   * The list that nodes with the link go to: of the present link node, or a new one.
   * @param {Link | null} link
   * @returns {Node[]}
   */
  #listFor(link) {
    if (link !== this.#link) {
      this.#link = link;
      this.#linkNode = null;
    }
    if (link === null) return this.#nodes;
    if (this.#linkNode === null) {
      this.#budget.takeNodes(1);
      for (const value of Object.values(link)) if (value !== null) this.#budget.takeText(value);
      this.#linkNode = element('link', link);
      this.#nodes.push(this.#linkNode);
    }
    return this.#linkNode.children;
  }

  /** @returns {Node[]} */
  #lastList() {
    return this.#nodes.at(-1)?.children ?? this.#nodes;
  }

  /** Drops the space that no browser shows at the end of a line. */
  #trim() {
    if (!this.#endsWithSpace) return;
    this.#endsWithSpace = false;
    const list = this.#lastList();
    const last = /** @type {Node} */ (list.at(-1));
    last.text = last.text.slice(0, -1);
    if (last.text === '') list.pop();
    this.#dropEmptyLink();
  }

  #dropEmptyLink() {
    if (this.#nodes.at(-1)?.children?.length !== 0) return;
    this.#nodes.pop();
    this.#link = this.#linkNode = null;
  }
}
