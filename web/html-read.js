// Reads parsed HTML into the nodes of a slice: one walk over the tree, without recursion, as pages nest as they like.
import { Builder } from './html-build.js';
import { blockContext, firstContext, inlineContext } from './html-context.js';
import { isHidden, stylesOf } from './html-style.js';
import { isBlank, isMarker, tabsOf } from './html-word.js';
import { isSafeAddress } from './safe.js';

/** @typedef {import('./html.js').ParsedNode} ParsedNode */
/** @typedef {import('./html-nodes.js').Node} Node */
/** @typedef {import('./html-style.js').Styles} Styles */
/** @typedef {import('./html-context.js').Context} Context */
/** @typedef {{ node: ParsedNode, context: Context, next: number, isBlock: boolean }} Step */

const dropped = new Set([
  'script', 'style', 'template', 'head', 'title', 'meta', 'base', 'link', 'noscript', 'noframes', 'noembed', 'iframe',
  'object', 'embed', 'applet', 'param', 'audio', 'video', 'canvas', 'source', 'track', 'area', 'datalist', 'col',
  'colgroup', 'frameset', 'frame', 'defs', 'metadata', 'xml',
]);
const blocks = new Set([
  'address', 'article', 'aside', 'blockquote', 'body', 'caption', 'center', 'dd', 'details', 'dialog', 'dir', 'div',
  'dl', 'dt', 'fieldset', 'figcaption', 'figure', 'footer', 'form', 'h1', 'h2', 'h3', 'h4', 'h5', 'h6', 'header',
  'hgroup', 'html', 'legend', 'li', 'listing', 'main', 'menu', 'nav', 'ol', 'optgroup', 'option', 'p', 'plaintext',
  'pre', 'search', 'section', 'summary', 'table', 'tbody', 'td', 'tfoot', 'th', 'thead', 'tr', 'ul', 'xmp',
]);

export class Reader {
  #builder = new Builder();
  /** @type {Step[]} */
  #steps = [];
  /** @type {ParsedNode | null} the element that the fragment starts in */
  #start = null;
  #isOver = false;
  #isWithinOne = false; // whether the fragment starts and ends in one element

  /**
   * @param {ParsedNode} document
   * @returns {Node[]}
   */
  read(document) {
    this.#enter(document, firstContext(this.#builder.root));
    while (this.#steps.length > 0 && !this.#isOver) {
      const step = this.#steps[this.#steps.length - 1];
      const child = step.node.children[step.next];
      step.next += 1;
      if (child) this.#visit(child, step.context);
      else this.#leave(/** @type {Step} */ (this.#steps.pop()));
    }
    const nodes = this.#builder.end();
    const [only, ...others] = nodes;
    const isLine = this.#isWithinOne && others.length === 0 && (only?.type === 'paragraph' || only?.type === 'heading');
    return isLine ? only.children ?? [] : nodes;
  }

  /**
   * @param {ParsedNode} node
   * @param {Context} context
   */
  #visit(node, context) {
    const { name, text } = node;
    if (name === '#text') this.#addText(text ?? '', context);
    else if (name === '#comment') this.#mark((text ?? '').trim());
    else if (!dropped.has(name)) this.#visitElement(node, context);
  }

  /**
   * @param {string} text
   * @param {Context} context
   */
  #addText(text, context) {
    const isSpace = context.spaces === 'normal' && !/[^ \t\n\r\f]/.test(text);
    if (isSpace && this.#builder.line === null) return;
    this.#line(context).addText(text, context, context.spaces);
  }

  /** @param {Context} context */
  #line({ block, place }) {
    return this.#builder.lineOf(block, place);
  }

  /**
   * The comments around what was copied: all else is only there to say where it stood.
   * @param {string} comment
   */
  #mark(comment) {
    const parent = this.#steps[this.#steps.length - 1].node;
    if (comment === 'StartFragment' && this.#start === null) {
      this.#builder.restart();
      this.#start = parent;
    } else if (comment === 'EndFragment' && this.#start !== null) {
      this.#isWithinOne = this.#start === parent && !['body', 'html', '#document'].includes(parent.name);
      this.#isOver = true;
    }
  }

  /**
   * @param {ParsedNode} node
   * @param {Context} context
   */
  #visitElement(node, context) {
    const styles = stylesOf(node.attributes.get('style'));
    if (node.attributes.has('hidden') || isHidden(styles) || isMarker(styles)) return;
    if (this.#addOwn(node, context, styles)) return;
    this.#enter(node, context, styles);
  }

  /**
   * Adds what an element is beside its children: void ones have some in MathML.
   * @param {ParsedNode} node
   * @param {Context} context
   * @param {Styles} styles
   * @returns {boolean} whether its children are no more than that
   */
  #addOwn(node, context, styles) {
    const { name, attributes } = node;
    if (name === 'br') this.#addBreak(attributes, context);
    else if (name === 'hr') this.#addRule(context);
    else if (name === 'img') this.#addImage(attributes, context);
    else if (name === 'input') this.#addInput(attributes, context);
    else if (name === 'o:p' && isBlank(node)) return this.#addBlank(node, context);
    else if (attributes.get('data-lexical-decorator') === 'true') this.#addEmbed(attributes, context);
    if (!styles.has('mso-tab-count')) return false;
    for (let left = tabsOf(styles); left > 0; left -= 1) this.#line(context).addTab(context);
    return isBlank(node);
  }

  /**
   * @param {ReadonlyMap<string, string>} attributes
   * @param {Context} context
   */
  #addBreak(attributes, context) {
    const isOfClipboard = attributes.get('class') === 'Apple-interchange-newline';
    if (!isOfClipboard) this.#line(context).addBreak(context);
  }

  /**
   * A space of Word's, which is there so that an empty paragraph has a height.
   * @param {ParsedNode} node
   * @param {Context} context
   */
  #addBlank({ children }, context) {
    const isAlone = !this.#builder.line?.isShown && children.some(({ text }) => text?.includes('\u00a0'));
    if (isAlone) this.#line(context).addBreak(context);
    return true;
  }

  /** @param {Context} context */
  #addRule({ place }) {
    this.#builder.endLine();
    this.#builder.putBlock({ type: 'horizontalrule', version: 1 }, place.outer);
  }

  /**
   * An image is its text; that of a check box in Google's documents says nothing.
   * @param {ReadonlyMap<string, string>} attributes
   * @param {Context} context
   */
  #addImage(attributes, context) {
    const text = attributes.get('alt') ?? '';
    const isCheck = attributes.get('aria-roledescription') === 'checkbox';
    if (text !== '' && !isCheck) this.#line(context).addText(text, context, 'normal');
  }

  /**
   * A check box at the start of an item makes it one of a list of checks.
   * @param {ReadonlyMap<string, string>} attributes
   * @param {Context} context
   */
  #addInput(attributes, { place }) {
    const isFirst = place.kind === 'item' && place.node === null && !this.#builder.line?.isShown;
    if (isFirst && attributes.get('type')?.toLowerCase() === 'checkbox') place.checked ??= attributes.has('checked');
  }

  /**
   * @param {ReadonlyMap<string, string>} attributes
   * @param {Context} context
   */
  #addEmbed(attributes, context) {
    const src = attributes.get('data-src') ?? '';
    if (src !== '' && isSafeAddress(src)) this.#line(context).addEmbed(src, context);
  }

  /**
   * @param {ParsedNode} node
   * @param {Context} around
   * @param {Styles} [styles]
   */
  #enter(node, around, styles = stylesOf(undefined)) {
    const isBlock = blocks.has(node.name);
    if (isBlock) this.#builder.endLine();
    const inner = isBlock ? blockContext(node, around, styles) : inlineContext(node, around, styles);
    this.#steps.push({ node, context: inner, next: 0, isBlock });
  }

  /** @param {Step} step */
  #leave({ node: { name }, context: { place }, isBlock }) {
    if (!isBlock) return;
    this.#builder.endLine();
    const isItem = place.kind === 'item' && (name === 'li' || place.parent?.isWordList === true);
    const isRow = place.kind === 'row' && name === 'tr';
    const isCell = place.kind === 'cell' && /^t[dh]$/.test(name);
    if ((isItem || isRow || isCell) && place.node === null) this.#builder.open(place);
  }
}
