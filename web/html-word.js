// What Word writes in a way of its own: lists as paragraphs that tell their level, tabs as spaces, empty paragraphs.
import { Place } from './html-build.js';
import { listMembers } from './html-nodes.js';
import { stylesOf } from './html-style.js';

/** @typedef {import('./html.js').ParsedNode} ParsedNode */
/** @typedef {import('./html-style.js').Styles} Styles */

const MOST_LOOKED_AT = 20; // nodes: a marker is at the start of its paragraph

/** Levels of Word's lists. */
export const MOST_LEVELS = 9;

/**
 * The level that a paragraph has in a list, from 1; null if it is in none.
 * @param {Styles} styles
 * @returns {number | null}
 */
export function wordLevelOf(styles) {
  const [, level] = /\blevel(\d{1,3})\b/.exec(styles.get('mso-list') ?? '') ?? [];
  return level === undefined ? null : Math.min(Math.max(Number(level), 1), MOST_LEVELS);
}

/**
 * Whether an element is the bullet or the number that Word writes as text.
 * @param {Styles} styles
 */
export const isMarker = styles => styles.get('mso-list') === 'ignore';

/**
 * How many tabs a span stands for.
 * @param {Styles} styles
 */
export const tabsOf = styles => Math.min(Math.max(Number.parseInt(styles.get('mso-tab-count') ?? '', 10) || 1, 1), 100);

/**
 * Whether an element has nothing but spaces, as Word writes them into an empty paragraph.
 * @param {ParsedNode} node
 */
export const isBlank = ({ children }) => children.every(({ text }) => text !== null && /^\s*$/.test(text));

/**
 * The list that a paragraph of Word is in: one that goes on, or a new one.
 * @param {ParsedNode} node
 * @param {Place} place
 * @param {number} level
 * @param {Record<string, unknown>} fields
 * @returns {Place}
 */
export function wordListOf(node, place, level, fields) {
  const [, name] = /\bl(\d+)\b/.exec(stylesOf(node.attributes.get('style')).get('mso-list') ?? '') ?? [];
  const marker = markerOf(node);
  const number = /^\(?(\d+|[a-z]+)[.)]/i.exec(marker)?.[1];
  const key = `${name} ${number === undefined ? 'bullet' : 'number'}`;
  const levels = place.wordLevels.slice(0, level);
  if (levels.length === level && levels[level - 1].key !== key) levels.pop();
  while (levels.length < level) {
    const isTold = levels.length === level - 1 && /^\d+$/.test(number ?? '');
    const members = listMembers(number !== undefined, isTold ? Number(number) : 1);
    const above = levels.at(-1)?.list;
    const list = new Place('list', above === undefined ? place : above.nesting(), { ...members, ...fields });
    list.isWordList = true;
    levels.push({ list, key });
  }
  place.wordLevels = levels;
  return levels[level - 1].list;
}

/**
 * A new item of a list.
 * @param {Place} list
 */
export const wordItemOf = list => new Place('item', list, { value: 1 });

/**
 * The text of a paragraph's marker.
 * @param {ParsedNode} paragraph
 */
function markerOf(paragraph) {
  const open = [...paragraph.children.slice(0, MOST_LOOKED_AT)].reverse();
  for (let looked = 0; open.length > 0 && looked < MOST_LOOKED_AT; looked += 1) {
    const node = /** @type {ParsedNode} */ (open.pop());
    if (isMarker(stylesOf(node.attributes.get('style')))) return textIn(node).trim();
    open.push(...node.children.slice(0, MOST_LOOKED_AT).reverse());
  }
  return '';
}

/** @param {ParsedNode} node */
function textIn(node) {
  let text = '';
  const open = [node];
  for (let looked = 0; open.length > 0 && looked < MOST_LOOKED_AT; looked += 1) {
    const next = /** @type {ParsedNode} */ (open.pop());
    text += (next.name === '#text' ? next.text ?? '' : '').slice(0, 100);
    open.push(...next.children.slice(0, MOST_LOOKED_AT).reverse());
  }
  return text;
}
