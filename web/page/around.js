// What is around the caret, for whoever shows it.
import { cellOf } from '../hosts-order.js';
import { typeOf } from './blocks.js';
import { formatOf } from './formats.js';
import { linkOf } from './link-lines.js';
import { blockAt, formatIn, isOfCells, isRange, parentOf, placesOf } from './ranges.js';

/** @type {Record<string, string>} */
const blocks = { p: 'paragraph', blockquote: 'quote' };

/**
 * @param {import('./page.js').AnyPage} page
 * @returns {{
 *   block: string | null, format: number, link: { key: number, url: string } | null, cell: boolean, align: string,
 *   indent: number, canUndo: boolean, canRedo: boolean,
 * }} `block` is `paragraph`, `heading-1` to `heading-6`, `quote`, `bullet`, `number` or `check`
 */
export function around(page) {
  const { hosts } = page.view, own = placesOf(page.selection), selection = page.selected ?? own;
  const key = isRange(selection) ? selection.anchor[0] : isOfCells(selection) ? selection.anchor : null;
  const host = key === null ? null : hosts.ofKey(key) ?? null;
  const block = isRange(selection) && host ? blockAt(hosts, selection.anchor) : null;
  const isOwn = JSON.stringify(selection) === JSON.stringify(own);
  const link = linkOf(host);
  return {
    block: block && nameOf(block),
    format: isOwn ? formatIn(page.selection) : host ? formatOf(host) : 0,
    link: link && { key: link.key, url: link.attributes.get('href') ?? '' },
    cell: cellOf(host) !== null,
    align: block?.attributes.get('data-align') ?? '',
    indent: Number(block?.attributes.get('data-indent') ?? 0),
    canUndo: page.history.undo > 0,
    canRedo: page.history.redo > 0,
  };
}

/** @param {import('../hosts.js').Host} block */
function nameOf(block) {
  if (block.tag === 'li') return typeOf(parentOf(block));
  return blocks[block.tag] ?? `heading-${block.tag.slice(1)}`;
}
