// Where what is within a block belongs: in lists, items, quotes and tables, as far as the core takes them.
import { Place } from './html-build.js';
import { DEEPEST, listMembers } from './html-nodes.js';
import { backgroundOf, stylesOf } from './html-style.js';
import { cellMembers, spanOf } from './html-table.js';
import { MOST_LEVELS, wordItemOf, wordLevelOf, wordListOf } from './html-word.js';

/** @typedef {import('./html.js').ParsedNode} ParsedNode */
/** @typedef {import('./html-context.js').Context} Context */
/** @typedef {import('./html-style.js').Styles} Styles */

/**
 * The place for what is within a block: an element of its own, if it makes one and there is room for it.
 * @param {ParsedNode} node
 * @param {Context} context
 * @param {Styles} styles
 * @returns {Place}
 */
export function placeWithin(node, context, styles) {
  const { name } = node;
  const { place } = context;
  switch (name) {
    case 'ul': case 'ol': case 'menu': case 'dir': return listWithin(node, context);
    case 'li': return itemWithin(node, context);
    case 'blockquote': return quoteWithin(context);
    case 'table': return hasRoom(place.outer, 6) ? new Place('table', place.outer, fieldsOf(context)) : place;
    case 'tr': return place.kind === 'table' ? new Place('row', place, fieldsOf(context)) : place;
    case 'td': case 'th': return place.kind === 'row' ? cellWithin(node, context, styles) : place;
    case 'caption': return place.outer;
    case 'p': case 'div': {
      const level = wordLevelOf(styles);
      const isFree = holdsBlocks(place) && hasRoom(place, 2 * MOST_LEVELS + 2);
      return level === null || !isFree ? place : wordItemOf(wordListOf(node, place, level, fieldsOf(context)));
    }
    default: return place;
  }
}

/**
 * Whether a place has levels left for what may come into it.
 * @param {Place} place
 * @param {number} levels
 */
const hasRoom = (place, levels) => place.level + levels <= DEEPEST;

/** @param {Place} place */
const holdsBlocks = ({ kind }) => kind === 'root' || kind === 'cell' || kind === 'quote';

/** @param {Context} context */
const fieldsOf = ({ direction }) => ({ direction });

/** @param {Context} context */
function quoteWithin(context) {
  const { place, align, direction } = context;
  if ((place.kind !== 'root' && place.kind !== 'cell') || !hasRoom(place, 4)) return place;
  return new Place('quote', place, { direction, format: align });
}

/**
 * @param {ParsedNode} node
 * @param {Context} context
 */
function listWithin({ name, attributes }, context) {
  const place = context.place.now;
  const parent = place.kind === 'table' || place.kind === 'row' ? place.outer : context.place.nesting();
  if (!hasRoom(parent, 5)) return place.kind === 'item' ? /** @type {Place} */ (place.parent) : place;
  const isNumbered = name === 'ol';
  const start = Number.parseInt(attributes.get('start') ?? '', 10);
  return new Place('list', parent, { ...listMembers(isNumbered, start >= 0 ? start : 1), ...fieldsOf(context) });
}

/**
 * @param {ParsedNode} node
 * @param {Context} context
 */
function itemWithin(node, context) {
  const place = context.place.now;
  const list = place.kind === 'item' ? /** @type {Place} */ (place.parent) : place.kind === 'list' ? place : null;
  if (list === null && !hasRoom(place.kind === 'quote' ? place : place.outer, 4)) return place;
  const item = new Place('item', list ?? strayList(place), { value: 1, format: context.align, ...fieldsOf(context) });
  item.checked = checkOf(node);
  return item;
}

/**
 * The list of an item that stands in none.
 * @param {Place} place
 */
function strayList(place) {
  const parent = place.kind === 'quote' ? place : place.outer;
  return new Place('list', parent, listMembers(false, 1));
}

/**
 * Whether an item tells itself that it is checked: null if it isn't one of a list of checks.
 * @param {ParsedNode} node
 * @returns {boolean | null}
 */
function checkOf({ attributes }) {
  if (attributes.get('role') === 'checkbox') return attributes.get('aria-checked') === 'true';
  const told = attributes.get('data-checked');
  if (told === 'true' || told === 'false') return told === 'true';
  return null;
}

/**
 * @param {ParsedNode} node
 * @param {Context} context
 * @param {Styles} styles
 */
function cellWithin({ name, attributes }, { place, isInHead, direction }, styles) {
  const colored = backgroundOf(styles) ?? backgroundOf(stylesOf(`background:${attributes.get('bgcolor') ?? ''}`));
  const members = {
    ...cellMembers,
    colSpan: spanOf(attributes.get('colspan'), 1),
    rowSpan: spanOf(attributes.get('rowspan'), 0),
    backgroundColor: colored,
    direction,
  };
  const scope = attributes.get('scope')?.toLowerCase() ?? '';
  return new Place('cell', place, members, { isHeader: name === 'th', scope, isInHead });
}
