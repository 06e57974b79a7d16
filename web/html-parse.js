// The parsers of HTML: the page's own, or parse5 in node. Both give the same plain tree, and run nothing.
import { ContentError } from './content-error.js';

/** @typedef {import('./html.js').ParsedNode} ParsedNode */
/** @typedef {{ name: string, attributes: Map<string, string>, children: Made[], text: string | null }} Made */
/** @typedef {any} Foreign a node of the DOM or of parse5 */
/** @typedef {(html: string) => ParsedNode} Parse */

const LONGEST = 16_777_216; // code units: no line may be longer than so many bytes
const DEEPEST = 512; // levels, as in Chrome: parse5 looks through all that are open at each tag
const MOST_WORK = 20_000_000; // levels that are open, summed over all elements

/** @type {ReadonlyMap<string, string>} */
const none = new Map();

/**
 * The parser of the page, if this is one; otherwise a promise of that of node.
 * @returns {Parse | Promise<Parse>}
 */
export function parserHere() {
  return typeof DOMParser === 'function' ? parseInPage : parserOfNode();
}

/**
 * Checks the length of what is to be parsed.
 * @param {string} html
 */
export function parsable(html) {
  if (html.length > LONGEST) throw new ContentError('size', `HTML of ${html.length} characters: at most ${LONGEST}`);
  return html;
}

/** @type {Parse} */
function parseInPage(html) {
  return copied(new DOMParser().parseFromString(html, 'text/html'), {
    nameOf: node => node.localName ?? (node.nodeName === '#cdata-section' ? '#text' : node.nodeName),
    textOf: node => node.data,
  });
}

/** @type {Promise<any> | null} */
let loading = null;

/** @returns {Promise<Parse>} */
async function parserOfNode() {
  loading ??= loadedParser();
  const parse5 = await loading;
  return html => {
    const treeAdapter = guarded(parse5.defaultTreeAdapter, html.length);
    const tree = parse5.parse(html, { treeAdapter, scriptingEnabled: false });
    return copied(tree, { nameOf: node => node.tagName ?? node.nodeName, textOf: node => node.value ?? node.data });
  };
}

/** @returns {Promise<any>} */
async function loadedParser() {
  const name = 'node:module'; // not written in the import, so that no bundler looks for it
  try {
    const { createRequire } = await import(/* webpackIgnore: true */ /* @vite-ignore */ name);
    return createRequire(import.meta.url)('parse5');
  } catch (error) {
    throw new ContentError('parser', 'there is no DOMParser here, and no parse5', error);
  }
}

/**
 * parse5's tree, but for trees that would take it too long: with many levels, or made of few bytes by tags left open.
 * @param {Record<string, any>} adapter
 * @param {number} length
 */
function guarded(adapter, length) {
  const levels = new WeakMap();
  let work = 0, made = 0;
  /** @type {(parent: Foreign, child: Foreign) => void} */
  const entered = (parent, child) => {
    const level = (levels.get(parent) ?? 0) + 1;
    levels.set(child, level);
    work += level;
    if (level > DEEPEST || work > MOST_WORK) throw new ContentError('depth', 'the HTML nests too deep');
  };
  return {
    ...adapter,
    /** @type {(...given: any[]) => Foreign} */
    createElement(...given) {
      made += 1;
      if (made > 1000 + length / 2) throw new ContentError('size', 'the HTML makes more elements than it has tags');
      return adapter.createElement(...given);
    },
    /** @type {(parent: Foreign, child: Foreign) => void} */
    appendChild(parent, child) {
      entered(parent, child);
      adapter.appendChild(parent, child);
    },
    /** @type {(parent: Foreign, child: Foreign, before: Foreign) => void} */
    insertBefore(parent, child, before) {
      entered(parent, child);
      adapter.insertBefore(parent, child, before);
    },
  };
}

/**
 * A copy of a foreign tree. What is in a template isn't among its children, so it goes here.
 * @param {Foreign} root
 * @param {{ nameOf: (node: Foreign) => string, textOf: (node: Foreign) => string }} kind
 * @returns {ParsedNode}
 */
function copied(root, { nameOf, textOf }) {
  /** @type {Made} */
  const whole = { name: '#document', attributes: new Map(), children: [], text: null };
  /** @type {[Foreign, Made][]} */
  const open = [[root, whole]];
  for (let next = open.pop(); next; next = open.pop()) {
    const [from, into] = next;
    for (const child of from.childNodes ?? []) {
      const name = nameOf(child).toLowerCase();
      const isText = name === '#text' || name === '#comment';
      /** @type {Made} */
      const made = { name, attributes: attributesOf(child), children: [], text: isText ? textOf(child) ?? '' : null };
      into.children.push(made);
      if (!isText) open.push([child, made]);
    }
  }
  return whole;
}

/**
 * @param {Foreign} node
 * @returns {Map<string, string>}
 */
function attributesOf(node) {
  const list = node.attributes ?? node.attrs;
  if (!list || list.length === 0) return /** @type {Map<string, string>} */ (none);
  return new Map(Array.from(list, ({ name, value }) => [name, value]));
}
