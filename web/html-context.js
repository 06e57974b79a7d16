// What holds at a place of the page: how its texts look, and where its lines belong.
import { linkOf } from './html-link.js';
import { placeWithin } from './html-places.js';
import { alignWithin, formatWithin, indentOf, spacesWithin } from './html-style.js';

/** @typedef {import('./html.js').ParsedNode} ParsedNode */
/** @typedef {import('./html-build.js').Block} Block */
/** @typedef {import('./html-build.js').Direction} Direction */
/** @typedef {import('./html-build.js').Place} Place */
/** @typedef {import('./html-style.js').Styles} Styles */
/**
 * @typedef {{
 *   format: number, link: import('./html-line.js').Link | null, spaces: 'normal' | 'lines' | 'all',
 *   align: import('./html-style.js').Align, direction: Direction, block: Block, place: Place, isInHead: boolean,
 * }} Context
 */

/**
 * @param {Place} place
 * @returns {Context}
 */
export function firstContext(place) {
  const block = { name: null, align: /** @type {const} */ (''), direction: null, indent: 0 };
  return { format: 0, link: null, spaces: 'normal', align: '', direction: null, block, place, isInHead: false };
}

/**
 * @param {ParsedNode} node
 * @param {Context} around
 * @param {Styles} styles
 * @returns {Context}
 */
export function inlineContext({ name, attributes }, around, styles) {
  const link = name === 'a' ? linkOf(attributes) ?? around.link : around.link;
  const format = formatWithin(around.format, name, styles, { isBlock: false, isInLink: link !== null });
  return { ...around, link, format, spaces: spacesWithin(around.spaces, name, styles) };
}

/**
 * @param {ParsedNode} node
 * @param {Context} around
 * @param {Styles} styles
 * @returns {Context}
 */
export function blockContext(node, around, styles) {
  const { name, attributes } = node;
  const format = formatWithin(around.format, name, styles, { isBlock: true, isInLink: around.link !== null });
  const direction = directionWithin(around.direction, attributes);
  const align = alignWithin(around.align, name, styles, attributes.get('align') ?? '');
  const indent = name === 'p' || /^h[1-6]$/.test(name) ? indentOf(styles) : around.block.indent;
  const block = { name: nameWithin(around.block, name), align, direction, indent };
  const context = { ...around, format, direction, align, block, spaces: spacesWithin(around.spaces, name, styles) };
  if (name === 'thead') context.isInHead = true;
  context.place = placeWithin(node, context, styles);
  return context;
}

/**
 * What holds lines: null for what only stands around them, as the page and a cell do.
 * @param {Block} around
 * @param {string} name
 */
function nameWithin(around, name) {
  if (/^(html|body|#document|table|thead|tbody|tfoot|tr|td|th|ul|ol|menu|dir|li|blockquote)$/.test(name)) return null;
  return /^h[1-6]$/.test(around.name ?? '') ? around.name : name;
}

/**
 * @param {Direction} around
 * @param {ReadonlyMap<string, string>} attributes
 * @returns {Direction}
 */
function directionWithin(around, attributes) {
  const value = attributes.get('dir')?.toLowerCase();
  if (value === 'auto') return null;
  return value === 'rtl' || value === 'ltr' ? value : around;
}
