// A document or a slice as HTML that says what things are, for files and for the clipboard.
import { ContentError } from './content-error.js';
import { escaped, writeInlines } from './html-inlines.js';
import { isInline } from './html-nodes.js';
import { STEP } from './html-style.js';
import { numberIn, stringIn, wordIn } from './html-values.js';
import { safeProperties, safeSchemes, safeStyle } from './safe.js';

/** @typedef {import('./html-values.js').Values} Values */
/** @typedef {{ schemes: readonly string[], styles: readonly string[], parts: string[] }} Writer */
/** @typedef {{ depth: number, align: string, direction: string }} Around what holds around a node */

const DEEPEST = 64; // levels: what the core takes, and some
const headings = ['h1', 'h2', 'h3', 'h4', 'h5', 'h6'];

/**
 * @param {import('./html.js').Document | import('./html.js').Slice} document
 * @param {import('./html.js').WritingOptions} [options]
 * @returns {string}
 */
export function htmlFromDocument(document, options = {}) {
  if (typeof document !== 'object' || document === null) throw new TypeError('a document is an object');
  const { schemes = safeSchemes, styles = safeProperties } = options;
  const { root, nodes } = /** @type {Values} */ (/** @type {unknown} */ (document));
  const list = root === undefined ? nodes : objectOf(root).children;
  /** @type {Writer} */
  const writer = { schemes, styles, parts: [] };
  if (!Array.isArray(list)) throw new ContentError('document', 'neither a document nor a slice: there are no nodes');
  writeMixed(writer, childrenOf({ children: list }), { depth: 1, align: '', direction: '' });
  return writer.parts.join('');
}

/**
 * @param {unknown} value
 * @returns {Values}
 */
function objectOf(value) {
  const isObject = typeof value === 'object' && value !== null && !Array.isArray(value);
  if (!isObject) throw new ContentError('document', 'a node is no object');
  return /** @type {Values} */ (value);
}

/**
 * @param {Values} node
 * @returns {(Values & { type: string })[]}
 */
function childrenOf({ children }) {
  if (children === undefined || children === null) return [];
  if (!Array.isArray(children)) throw new ContentError('document', '`children` is no list');
  return children.map(child => {
    const node = objectOf(child);
    if (typeof node.type !== 'string') throw new ContentError('document', 'a node has no type');
    return /** @type {Values & { type: string }} */ (node);
  });
}

/**
 * Writes lines of inlines, and blocks between them.
 * @param {Writer} writer
 * @param {(Values & { type: string })[]} nodes
 * @param {Around} around
 */
function writeMixed(writer, nodes, around) {
  if (around.depth > DEEPEST) throw new ContentError('depth', `a document nests at most ${DEEPEST} levels deep`);
  for (let at = 0; at < nodes.length;) {
    let end = at;
    while (end < nodes.length && isInline(nodes[end])) end += 1;
    if (end > at) writeInlines(writer, nodes.slice(at, end), childrenOf);
    else writeBlock(writer, nodes[end++], around);
    at = end;
  }
}

/**
 * @param {Writer} writer
 * @param {Values & { type: string }} node
 * @param {Around} around
 */
function writeBlock(writer, node, around) {
  switch (node.type) {
    case 'paragraph': return writeLine(writer, 'p', node, around);
    case 'heading': return writeLine(writer, wordIn(node, 'tag', headings, 'h1'), node, around);
    case 'quote': return writeLine(writer, 'blockquote', node, around);
    case 'list': return writeList(writer, node, around);
    case 'table': return writeTable(writer, node, around);
    case 'horizontalrule': writer.parts.push('<hr>'); return;
    default: throw new ContentError('document', `a ${node.type} where a block belongs`);
  }
}

/**
 * @param {Writer} writer
 * @param {string} tag
 * @param {Values} node
 * @param {Around} around
 */
function writeLine(writer, tag, node, around) {
  const children = childrenOf(node);
  writer.parts.push(`<${tag}${lookOf(node, around)}>`);
  if (children.length === 0) writer.parts.push('<br>');
  writeMixed(writer, children, within(node, around));
  writer.parts.push(`</${tag}>`);
}

/**
 * The attributes of an element: its direction, its alignment and its indentation. It says so if it has none of its own,
 * where one would go down to it from around.
 * @param {Values} node
 * @param {Around} around
 * @param {string} [style] another declaration
 */
function lookOf(node, around, style = '') {
  const { align, direction } = within(node, around);
  const indent = numberIn(node, 'indent', 0, 65_535, 0);
  const told = direction || (around.direction && 'auto');
  const styles = style === '' ? [] : [escaped(style)];
  if (align || around.align) styles.push(`text-align: ${align || 'start'}`);
  if (indent > 0) styles.push(`padding-inline-start: ${indent * STEP}px`);
  return (told && ` dir="${told}"`) + (styles.length > 0 ? ` style="${styles.join('; ')}"` : '');
}

/**
 * What holds within a node.
 * @param {Values} node
 * @param {Around} around
 * @returns {Around}
 */
function within(node, { depth }) {
  const direction = wordIn(node, 'direction', ['ltr', 'rtl'], '');
  const align = wordIn(node, 'format', ['left', 'center', 'right', 'justify', 'start', 'end'], '');
  return { depth: depth + 1, align, direction };
}

/**
 * @param {Writer} writer
 * @param {Values} list
 * @param {Around} around
 */
function writeList(writer, list, around) {
  const type = wordIn(list, 'listType', ['bullet', 'number', 'check'], 'bullet');
  const start = numberIn(list, 'start', 0, 1_000_000, 1);
  const tag = type === 'number' ? 'ol' : 'ul';
  const kind = type === 'check' ? ' class="contains-task-list"' : '';
  const first = type === 'number' && start !== 1 ? ` start="${start}"` : '';
  writer.parts.push(`<${tag}${kind}${first}${lookOf(list, around)}>`);
  const inner = within(list, around);
  let isOpen = false, shown = inner;
  const items = childrenOf(list);
  items.forEach((item, index) => {
    if (item.type !== 'listitem') throw new ContentError('document', `a ${item.type} in a list`);
    const children = childrenOf(item);
    const isPart = isNesting(item); // of the item before it
    if (isOpen && !isPart) writer.parts.push('</li>');
    if (!isOpen || !isPart) writer.parts.push(itemStart(item, type === 'check' && !isPart, inner));
    if (!isOpen || !isPart) shown = within(item, inner);
    writeMixed(writer, children, shown);
    if (children.length === 0 && isNesting(items[index + 1])) writer.parts.push('<br>'); // or they would be one item
    isOpen = true;
  });
  writer.parts.push(isOpen ? `</li></${tag}>` : `</${tag}>`);
}

/**
 * Whether an item begins with a list: it is shown without a bullet or a number of its own.
 * @param {Values | undefined} item
 */
const isNesting = item => item !== undefined && childrenOf(item)[0]?.type === 'list';

/**
 * @param {Values} item
 * @param {boolean} isCheck
 * @param {Around} around
 */
function itemStart(item, isCheck, around) {
  if (!isCheck) return `<li${lookOf(item, around)}>`;
  const checked = item.checked === true ? ' checked' : '';
  return `<li class="task-list-item"${lookOf(item, around)}><input type="checkbox"${checked} disabled> `;
}

/**
 * @param {Writer} writer
 * @param {Values} table
 * @param {Around} around
 */
function writeTable(writer, table, around) {
  writer.parts.push(`<table${lookOf(table, around)}><tbody>`);
  const inner = { ...within(table, around), align: '' }; // which doesn't go down into a table
  for (const row of childrenOf(table)) {
    if (row.type !== 'tablerow') throw new ContentError('document', `a ${row.type} in a table`);
    writer.parts.push(`<tr${lookOf(row, inner)}>`);
    const own = within(row, inner);
    for (const cell of childrenOf(row)) {
      if (cell.type !== 'tablecell') throw new ContentError('document', `a ${cell.type} in a row`);
      writeCell(writer, cell, own);
    }
    writer.parts.push('</tr>');
  }
  writer.parts.push('</tbody></table>');
}

/**
 * @param {Writer} writer
 * @param {Values} cell
 * @param {Around} around
 */
function writeCell(writer, cell, around) {
  const header = numberIn(cell, 'headerState', 0, 3, 0);
  const tag = header === 0 ? 'td' : 'th';
  const scope = ['', ' scope="col"', ' scope="row"', ''][header];
  const spans = /** @type {const} */ (['colSpan', 'rowSpan']).map(name => {
    const span = numberIn(cell, name, 1, 1000, 1);
    return span === 1 ? '' : ` ${name.toLowerCase()}="${span}"`;
  });
  const color = stringIn(cell, 'backgroundColor');
  const style = color === '' ? '' : safeStyle(`background-color: ${color.replace(/;/g, '')}`, writer.styles);
  const children = childrenOf(cell);
  const inner = within(cell, around);
  const [only, ...others] = children;
  const isPlain = others.length === 0 && only?.type === 'paragraph' && lookOf(only, inner) === '';
  writer.parts.push(`<${tag}${scope}${spans.join('')}${lookOf(cell, around, style)}>`);
  writeMixed(writer, isPlain ? childrenOf(only) : children, inner);
  writer.parts.push(`</${tag}>`);
}
