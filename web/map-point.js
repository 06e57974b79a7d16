// Where a point of the tree before a commit is after it, as far as the commit's operations tell. selection.d.ts says
// when they don't.
import { NodeAfter } from './node-after.js';

/** @typedef {import('./dom.js').View} View */
/** @typedef {import('./hosts.js').Host} Host */
/** @typedef {import('./hosts.js').Hosts} Hosts */
/** @typedef {import('./replies.js').Operation} Operation */
/** @typedef {import('./replies.js').ReplyPoint} ReplyPoint */

/**
 * @param {Hosts | View} before the hosts as they were before the commit
 * @param {readonly Operation[]} ops
 * @param {ReplyPoint} point
 * @returns {ReplyPoint | null}
 */
export function mapPoint(before, ops, point) {
  const [key, offset, kind] = checked(point);
  const hosts = 'hosts' in before ? before.hosts : before;
  const host = hosts.ofKey(key);
  if (host === undefined) return null;
  const after = new NodeAfter(hosts, host, ops);
  const mapped = kind === 'text' ? inText(host.text, after, offset) : amongChildren(host, after, offset);
  return mapped === null ? null : [key, mapped, kind];
}

/**
 * @param {ReplyPoint} point
 * @returns {ReplyPoint}
 */
function checked(point) {
  const isPoint = Array.isArray(point) && Number.isInteger(point[0]) && Number.isInteger(point[1]) && point[1] >= 0;
  if (!isPoint || !['text', 'element'].includes(point[2])) throw new TypeError('a point is [key, offset, kind]');
  return point;
}

// ---- points in texts

/**
 * @param {string | null} text
 * @param {NodeAfter} after
 * @param {number} offset
 */
function inText(text, after, offset) {
  const { text: other, writesOthers } = after;
  if (text === null || other === null || offset > text.length) return null;
  if (text === other) return offset;
  const { low, high, isCut } = changeBetween(text, other);
  if (offset <= low) return offset;
  const isBehind = offset > high || (offset === high && isCut && !writesOthers);
  return isBehind ? offset + other.length - text.length : null;
}

/**
 * The part of a text in which the smallest change is that makes another one of it. Where that may be at several places,
 * as of "aa" that gets another "a", the part has them all.
 * @param {string} text
 * @param {string} other
 */
function changeBetween(text, other) {
  const front = frontOf(text, other), back = backOf(text, other);
  const shorter = Math.min(text.length, other.length), cut = Math.max(0, text.length - other.length);
  return {
    low: Math.min(front, shorter - back),
    high: Math.max(text.length - back, front + cut),
    isCut: cut > 0 && front + back >= shorter, // nothing came in
  };
}

/**
 * How long two texts are the same from their start, without half a surrogate pair.
 * @param {string} text
 * @param {string} other
 */
function frontOf(text, other) {
  const most = Math.min(text.length, other.length);
  let front = 0;
  while (front < most && text[front] === other[front]) front += 1;
  return front > 0 && (text.charCodeAt(front - 1) & 0xfc00) === 0xd800 ? front - 1 : front;
}

/**
 * The same to their ends.
 * @param {string} text
 * @param {string} other
 */
function backOf(text, other) {
  const most = Math.min(text.length, other.length);
  let back = 0;
  while (back < most && text[text.length - 1 - back] === other[other.length - 1 - back]) back += 1;
  return back > 0 && (text.charCodeAt(text.length - back) & 0xfc00) === 0xdc00 ? back - 1 : back;
}

// ---- points among children

/**
 * A point stays right behind the child that it was behind. Where that one went, what it is behind now has to be clear.
 * @param {Host} host
 * @param {NodeAfter} after
 * @param {number} offset
 */
function amongChildren(host, after, offset) {
  const { children } = host, { children: keys } = after;
  if (host.text !== null || keys === null || offset > children.length) return null;
  const places = new Map(keys.map((key, index) => [key, index]));
  const kept = children.map(({ key }) => places.get(key));
  const areGone = kept.every(place => place === undefined);
  if (areGone && children.some(child => after.isElsewhere(child))) return null; // the point may have gone with them
  const behind = reduced(kept.slice(0, offset), -1, Math.max) + 1;
  const ahead = reduced(kept.slice(offset), keys.length, Math.min);
  if (behind > ahead) return null; // children have changed sides
  if (offset === 0) return 0;
  const neighbour = kept[offset - 1];
  return behind === (neighbour === undefined ? ahead : neighbour + 1) ? behind : null;
}

/**
 * @param {(number | undefined)[]} places
 * @param {number} start
 * @param {(one: number, other: number) => number} chosen
 */
function reduced(places, start, chosen) {
  let found = start;
  for (const place of places) if (place !== undefined) found = chosen(found, place);
  return found;
}
