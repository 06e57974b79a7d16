// Lists that have come to stand side by side become one, so that the numbers of the items go on.
import { indexOf, isList } from '../hosts-order.js';
import { typeOf } from './blocks.js';
import { blockAt, isRange } from './ranges.js';

/** @typedef {import('../hosts.js').Host} Host */
/** @typedef {import('../lines.js').Step} Step */

/**
 * The steps that join the outermost list around what is selected with those of its type right before it and behind it.
 * @param {import('../hosts.js').Hosts} hosts
 * @param {import('../lines.js').Selection} selection
 * @returns {Step[]}
 */
export function listsJoined(hosts, selection) {
  const list = isRange(selection) ? outermostList(blockAt(hosts, selection.anchor)) : null;
  if (list === null) return [];
  const [first, ...others] = alikeAround(list);
  return others.flatMap(({ key }) => [{ children: key, into: first.key }, { remove: key }]);
}

/**
 * @param {Host | null} block
 * @returns {Host | null}
 */
function outermostList(block) {
  let list = null;
  for (let at = block; at && (at.tag === 'li' || isList(at)); at = at.parent) if (isList(at)) list = at;
  return list;
}

/**
 * A list and those of its type that are next to it, in order.
 * @param {Host} list
 */
function alikeAround(list) {
  const { children } = /** @type {Host} */ (list.parent), type = typeOf(list), at = indexOf(list);
  const isAlike = (/** @type {Host | undefined} */ host) => host !== undefined && isList(host) && typeOf(host) === type;
  let from = at, to = at;
  while (isAlike(children[from - 1])) from -= 1;
  while (isAlike(children[to + 1])) to += 1;
  return children.slice(from, to + 1);
}
