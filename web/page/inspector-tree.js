// The nodes of the document as a tree of lines: a key, a type, and what is in it.

const MOST = 300; // lines: the rest of a long document is only counted

/** @typedef {import('../hosts.js').Host} Host */
/** @typedef {import('../dom.js').View} View */
/** @typedef {Map<number, string>} Selected words for the keys that are selected */

/** @type {Record<string, string>} */
const types = {
  p: 'paragraph', blockquote: 'quote', ul: 'list', ol: 'list', li: 'item', a: 'link',
  table: 'table', tr: 'row', td: 'cell', th: 'header cell', br: 'line break', hr: 'rule', div: 'embed',
};

const untold = new Set(['data-lexical-text', 'role', 'rel', 'target']);
const plain = new Set(['class', 'href', 'data-src']); // the value says enough

/**
 * The tree around what is selected.
 * @param {import('./page.js').AnyPage} page
 * @param {Document} document
 */
export function treeOf({ view, selection }, document) {
  const list = document.createElement('ul');
  const selected = selectedKeys(selection);
  const { children } = view.hosts.root;
  const budget = { left: MOST };
  const first = firstShown(view, children, selected);
  if (first > 0) list.append(note(document, `${first} blocks before`));
  let at = first;
  for (; at < children.length && budget.left > 0; at += 1) {
    list.append(branchOf(children[at], selected, document, budget));
  }
  if (at < children.length) list.append(note(document, `${children.length - at} blocks after`));
  return list;
}

/**
 * The block to begin with: a few before the caret where the document is long.
 * @param {View} view
 * @param {readonly Host[]} blocks
 * @param {Selected} selected
 */
function firstShown(view, blocks, selected) {
  if (blocks.length <= MOST / 4) return 0;
  let [host] = [...selected.keys()].map(key => view.hosts.ofKey(key));
  while (host?.parent?.parent) host = host.parent;
  return host ? Math.max(0, blocks.indexOf(host) - MOST / 10) : 0;
}

/**
 * The keys that the selection has, each with the words to show for it.
 * @param {import('../replies.js').ReplySelection} selection
 */
function selectedKeys(selection) {
  /** @type {Selected} */
  const keys = new Map();
  /** @type {(key: number, words: string) => void} */
  const add = (key, words) => { keys.set(key, keys.has(key) ? `${keys.get(key)}, ${words}` : words); };
  if (selection?.kind === 'range') {
    const { anchor, focus } = selection;
    if (String(anchor) === String(focus)) add(anchor[0], `caret at ${anchor[1]}`);
    else {
      add(anchor[0], `anchor at ${anchor[1]}`);
      add(focus[0], `focus at ${focus[1]}`);
    }
  } else if (selection?.kind === 'cells') {
    add(selection.anchor, 'first cell selected');
    add(selection.focus, 'last cell selected');
  } else selection?.keys.forEach(key => add(key, 'selected'));
  return keys;
}

/**
 * @param {Host} host
 * @param {Selected} selected
 * @param {Document} document
 * @param {{ left: number }} budget of lines
 */
function branchOf(host, selected, document, budget) {
  budget.left -= 1;
  const item = document.createElement('li'), marked = selected.get(host.key);
  item.append(word(document, 'inspector-key', String(host.key)), ' ', typeOf(host));
  const details = detailsOf(host);
  if (details) item.append(' ', word(document, 'inspector-details', details));
  if (host.text !== null) item.append(' ', word(document, 'inspector-text', JSON.stringify(host.text)));
  if (marked) item.append(' ', word(document, 'inspector-caret', marked));
  const { children } = host;
  if (children.length > 0) {
    const list = item.appendChild(document.createElement('ul'));
    for (const child of children) {
      if (budget.left <= 0) break;
      list.append(branchOf(child, selected, document, budget));
    }
  }
  return item;
}

/** @param {Host} host */
function typeOf({ tag, text }) {
  if (text !== null) return text === '\t' ? 'tab' : 'text';
  const outer = tag.split('>')[0];
  return /^h[1-6]$/.test(outer) ? `heading ${outer[1]}` : types[outer] ?? outer;
}

/**
 * Formats, where a link goes, and other attributes that tell something.
 * @param {Host} host
 */
function detailsOf({ attributes }) {
  const told = [...attributes].filter(([name]) => !untold.has(name));
  return told.map(([name, value]) => (plain.has(name) ? value : `${name.replace(/^\w+-/, '')} ${value}`)).join(', ');
}

/**
 * @param {Document} document
 * @param {string} name
 * @param {string} text
 */
function word(document, name, text) {
  const element = document.createElement('span');
  element.className = name;
  element.textContent = text;
  return element;
}

/**
 * @param {Document} document
 * @param {string} text
 */
function note(document, text) {
  const item = document.createElement('li');
  item.className = 'inspector-note';
  item.textContent = `… ${text}`;
  return item;
}
