// What the modules about selections ask of the tree of hosts: what a host is, and the order of points.

/** @typedef {import('./hosts.js').Host} Host */
/** @typedef {import('./hosts.js').Hosts} Hosts */
/** @typedef {import('./replies.js').ReplyPoint} ReplyPoint */

const blocks = new Set(['p', 'h1', 'h2', 'h3', 'h4', 'h5', 'h6', 'blockquote', 'li']);
const leaves = new Set(['br', 'hr', 'span']);

/**
 * Whether a host shows a line break, a rule or an embed, which has neither characters nor children to be inside of.
 * @param {Host} host
 */
export const isLeaf = host => host.text === null && leaves.has(host.tag);

/**
 * Whether a host shows a paragraph, a heading, a quote or an item.
 * @type {(host: Host) => boolean}
 */
export const isBlock = host => blocks.has(host.tag);

/** @type {(host: Host) => boolean} */
export const isList = host => host.tag === 'ul' || host.tag === 'ol';

/** @type {(host: Host) => boolean} */
export const isCell = host => host.tag === 'td' || host.tag === 'th';

/**
 * The place of a host among its parent's children.
 * @param {Host} host
 */
export const indexOf = host => host.parent === null ? 0 : host.parent.children.indexOf(host);

/**
 * The nearest host from one upwards of which something holds.
 * @param {Host | null} host
 * @param {(host: Host) => boolean} holds
 */
export function nearest(host, holds) {
  let at = host;
  while (at !== null && !holds(at)) at = at.parent;
  return at;
}

/**
 * The block around a host.
 * @type {(host: Host | null) => Host | null}
 */
export const blockOf = host => nearest(host, isBlock);

/**
 * The cell around a host.
 * @type {(host: Host | null) => Host | null}
 */
export const cellOf = host => nearest(host, isCell);

/**
 * The numbers of children on the way from the root to a point, and then its offset.
 * @param {Hosts} hosts
 * @param {ReplyPoint} point
 */
function wayTo(hosts, [key, offset]) {
  const way = [offset];
  for (let at = hosts.ofKey(key); at && at.parent !== null; at = at.parent) way.push(indexOf(at));
  return way.reverse();
}

/**
 * Whether a point is before another one: in an element it is before all that is below the child at its offset.
 * @param {Hosts} hosts
 * @param {ReplyPoint} first
 * @param {ReplyPoint} second
 */
export function isBefore(hosts, first, second) {
  if (first[0] === second[0]) return first[1] < second[1]; // as in most selections: then no list is looked through
  const [ours, theirs] = [wayTo(hosts, first), wayTo(hosts, second)];
  const fork = ours.findIndex((step, index) => step !== theirs[index]);
  return fork < 0 ? ours.length < theirs.length : fork < theirs.length && ours[fork] < theirs[fork];
}

/**
 * The first or the last point in what a host shows; next to it where it has no inside, or is a table.
 * @param {Host} host
 * @param {boolean} isFirst
 * @param {boolean} [withTables] whether it is looked for in tables too
 * @returns {ReplyPoint}
 */
export function edgeOf(host, isFirst, withTables = false) {
  let at = host;
  for (;;) {
    if (at.text !== null) return [at.key, isFirst ? 0 : at.text.length, 'text'];
    if ((isLeaf(at) || (at.tag === 'table' && !withTables)) && at.parent !== null) {
      return [at.parent.key, indexOf(at) + (isFirst ? 0 : 1), 'element'];
    }
    const { children } = at;
    if (children.length === 0) return [at.key, 0, 'element'];
    at = children[isFirst ? 0 : children.length - 1];
  }
}
