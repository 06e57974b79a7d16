// Builds the nodes of a slice out of lines, each with the place where it belongs. A place is an element that may come
// to be: it is made once something belongs into it, and made again where what came between may not be in it.
import { Line } from './html-line.js';
import { Budget, MOST_START, breakNode, element, isInline } from './html-nodes.js';
import { mended } from './html-table.js';

/** @typedef {import('./html-nodes.js').Node} Node */
/** @typedef {import('./html-nodes.js').Element} Element */
/** @typedef {import('./html-style.js').Align} Align */
/** @typedef {import('./html-table.js').CellFacts} CellFacts */
/** @typedef {'ltr' | 'rtl' | null} Direction */
/** @typedef {'root' | 'quote' | 'list' | 'item' | 'table' | 'row' | 'cell'} Kind */
/** @typedef {{ name: string | null, align: Align, direction: Direction, indent: number }} Block what a line is of */
/** @typedef {{ list: Place, key: string }} WordLevel */

export class Place {
  /** @type {Element | null} the node that was made last */
  node = null;
  /** @type {Place | null} of an item: the one for its lists and what is after them */
  nest = null;
  holdsLists = false; // an item of lists, and of what is after them
  /** @type {Place | null} of a list: its last item so far */
  lastItem = null;
  /** @type {boolean | null} */
  checked = null;
  /** @type {WordLevel[]} lists of Word that go on here, by their levels */
  wordLevels = [];
  isWordList = false;
  count = 0;

  /**
   * @param {Kind} kind
   * @param {Place | null} parent
   * @param {Record<string, unknown>} members
   * @param {CellFacts | null} facts
   */
  constructor(kind, parent, members = {}, facts = null) {
    this.kind = kind;
    this.parent = parent;
    this.members = members;
    this.facts = facts;
    /** @type {number} */
    this.level = parent === null ? 0 : parent.level + 1;
  }

  /**
   * Where lines go that belong here: text after the lists of an item belongs beside them.
   * @returns {Place}
   */
  get now() {
    return this.nest ?? this;
  }

  /**
   * What holds a list at this place: lists within a list are in items of their own, as the core's commands leave them.
   * @returns {Place}
   */
  nesting() {
    const { now } = this;
    if (now.kind === 'list') return now.lastItem?.nesting() ?? new Place('item', now).nesting();
    if (now.kind !== 'item' || now.holdsLists) return now;
    const isEmpty = now.node === null && now.checked === null;
    this.nest = isEmpty ? now : new Place('item', now.parent);
    this.nest.holdsLists = true;
    return this.nest;
  }

  /** The nearest place that holds any block. */
  get outer() {
    /** @type {Place} */
    let place = this;
    while (place.parent !== null && place.kind !== 'cell') place = place.parent;
    return place;
  }
}

const types = {
  root: 'root', quote: 'quote', list: 'list', item: 'listitem', table: 'table', row: 'tablerow', cell: 'tablecell',
};

export class Builder {
  budget = new Budget();
  root = new Place('root', null);
  /** @type {Line | null} */
  line = null;
  /** @type {Set<Node>} paragraphs of lines that no block of their own holds */
  #bare = new Set();
  /** @type {Map<Node, CellFacts>} */
  #cells = new Map();
  /** @type {Place[]} */
  #open = [];
  /** @type {{ block: Block, place: Place } | null} */
  #of = null;

  constructor() {
    this.restart();
  }

  /** Forgets all that was built. */
  restart() {
    this.line = null;
    this.root.node = element('root');
    this.#open = [this.root];
    this.budget = new Budget();
  }

  /**
   * The line that goes on, or a new one.
   * @param {Block} block
   * @param {Place} place
   */
  lineOf(block, place) {
    if (this.line === null) {
      this.line = new Line(this.budget);
      this.#of = { block, place };
    }
    return this.line;
  }

  /** Ends the line, if there is one, and puts it where it belongs. */
  endLine() {
    const { line } = this;
    this.line = null;
    if (line === null || !line.isShown || this.#of === null) return;
    const { block, place } = this.#of;
    this.#putLine(line.end(), block, place.now);
  }

  /**
   * Opens a place, and closes those that it isn't in.
   * @param {Place} place
   * @returns {Element}
   */
  open(place) {
    /** @type {Place[]} */
    const missing = [];
    /** @type {Place} */
    let found = place;
    for (; this.#open[found.level] !== found && found.parent !== null; found = found.parent) missing.push(found);
    while (this.#open.length > found.level + 1) this.#close();
    for (let next = missing.pop(); next; next = missing.pop()) this.#make(next);
    return /** @type {Element} */ (place.node);
  }

  /**
   * Puts a block into a place that holds any.
   * @param {Node} node
   * @param {Place} place
   */
  putBlock(node, place) {
    this.budget.takeNodes(1);
    this.open(place).children.push(node);
    place.wordLevels = [];
  }

  /** The nodes of the slice: inlines where they are no more than a line. */
  end() {
    this.endLine();
    while (this.#open.length > 1) this.#close();
    const nodes = /** @type {Element} */ (this.root.node).children;
    return nodes.length === 1 && this.#bare.has(nodes[0]) ? nodes[0].children ?? [] : nodes;
  }

  /**
   * @param {Node[]} inlines
   * @param {Block} block
   * @param {Place} place
   */
  #putLine(inlines, block, place) {
    const { kind } = place;
    if (kind === 'item') this.#putIntoItem(inlines, block, place);
    else if (kind === 'list') this.#putIntoItem(inlines, block, new Place('item', place));
    else if (kind === 'table' || kind === 'row') this.#putParagraph(inlines, block, place.outer);
    else this.#putParagraph(inlines, block, place);
  }

  /**
   * @param {Node[]} inlines
   * @param {Block} block
   * @param {Place} place
   */
  #putParagraph(inlines, { name, align, direction, indent }, place) {
    const members = { children: inlines, direction, format: align, indent };
    const isHeading = name !== null && /^h[1-6]$/.test(name);
    const node = isHeading ? element('heading', { ...members, tag: name }) : element('paragraph', members);
    if (name === null) this.#bare.add(node);
    this.putBlock(node, place);
  }

  /**
   * @param {Node[]} inlines
   * @param {Block} block
   * @param {Place} place
   */
  #putIntoItem(inlines, { align, direction }, place) {
    const node = this.open(place);
    const { children } = node;
    if (children.length === 0) {
      Object.assign(node, { format: align, direction });
      place.holdsLists = false;
    }
    const last = children.at(-1);
    if (last !== undefined && isInline(last)) {
      this.budget.takeNodes(1);
      children.push(breakNode());
    }
    for (const inline of inlines) children.push(inline);
  }

  /** @param {Place} place */
  #make(place) {
    const parent = /** @type {Place} */ (place.parent);
    this.budget.takeNodes(1);
    const node = element(types[place.kind], { ...place.members });
    const isNumbered = place.kind === 'list' && node.listType === 'number';
    if (isNumbered) node.start = Math.min(node.start + place.count, MOST_START);
    if (place.kind === 'item' && place.checked !== null) node.checked = place.checked;
    if (place.facts !== null) this.#cells.set(node, place.facts);
    place.node = node;
    if (!place.isWordList) parent.wordLevels = [];
    if (place.kind === 'item') parent.lastItem = place;
    /** @type {Element} */ (parent.node).children.push(node);
    this.#open.push(place);
  }

  #close() {
    const place = /** @type {Place} */ (this.#open.pop());
    const node = /** @type {Element} */ (place.node);
    if (place.kind === 'list') this.#endList(place, node);
    if (place.kind === 'quote') this.#endQuote(node);
    if (place.kind === 'cell' && node.children.length === 0) {
      this.budget.takeNodes(1);
      node.children.push(element('paragraph'));
    }
    if (place.kind !== 'table') return;
    if (!mended(node, this.#cells, this.budget)) /** @type {Element} */ (place.parent?.node).children.pop();
  }

  /**
   * Numbers the items. One with a check makes a list of checks.
   * @param {Place} place
   * @param {Element} list
   */
  #endList(place, list) {
    const items = list.children.filter(({ children }) => children?.[0]?.type !== 'list');
    const hasChecks = items.some(({ checked }) => checked !== undefined);
    if (hasChecks) Object.assign(list, { listType: 'check', tag: 'ul', start: 1 });
    let value = list.start;
    for (const item of list.children) {
      item.value = value;
      if (item.children?.[0]?.type === 'list') { // it is shown as a part of the item before it
        delete item.checked;
        Object.assign(item, { direction: null, format: '' });
        continue;
      }
      value += 1;
      if (hasChecks) item.checked ??= false;
    }
    place.count += items.length;
  }

  /**
   * A quote of one line that no block holds has just that.
   * @param {Element} quote
   */
  #endQuote(quote) {
    const [only, ...others] = quote.children;
    if (others.length === 0 && only?.children && this.#bare.has(only)) quote.children = only.children;
  }

  /**
   * Says that a node is no more than a line, so that it may be pasted into another one.
   * @param {Node} node
   */
  makeBare(node) {
    this.#bare.add(node);
  }
}
