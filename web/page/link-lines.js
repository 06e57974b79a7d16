// Links: made of what is selected, given another address, and taken away.
import { indexOf, nearest } from '../hosts-order.js';
import { isCaret, isRange, textsIn } from './ranges.js';

/** @typedef {import('../hosts.js').Host} Host */
/** @typedef {import('../hosts.js').Hosts} Hosts */
/** @typedef {import('../lines.js').Line} Line */
/** @typedef {import('../lines.js').Step} Step */
/** @typedef {import('../lines.js').Selection} Selection */

/**
 * The link around a host, or null.
 * @type {(host: Host | null) => Host | null}
 */
export const linkOf = host => nearest(host, ({ tag }) => tag === 'a');

/**
 * The links that a range is in, or goes through.
 * @param {Hosts} hosts
 * @param {Selection} selection
 * @returns {Host[]}
 */
export function linksIn(hosts, selection) {
  if (!isRange(selection)) return [];
  const { anchor: [key] } = selection;
  const texts = isCaret(selection) ? [hosts.ofKey(key) ?? null] : textsIn(hosts, selection).map(({ host }) => host);
  return [...new Set(texts.flatMap(host => linkOf(host) ?? []))];
}

/**
 * The line that makes a link of what is selected. Links in it get the address. At a caret outside of links the address
 * itself is put in, as a link.
 * @param {Hosts} hosts
 * @param {Selection} selection
 * @param {string} url
 * @returns {Line}
 */
export function linked(hosts, selection, url) {
  const links = linksIn(hosts, selection);
  /** @type {Step[]} */
  const steps = links.map(({ key }) => ({ set: key, fields: { url } }));
  if (!isRange(selection)) return { update: steps };
  if (isCaret(selection)) {
    if (links.length > 0) return { update: steps };
    const nodes = [{ type: 'link', url, children: [{ type: 'text', text: url }] }];
    return { dispatch: 'paste', payload: JSON.stringify({ namespace: 'lexical-core', nodes }) };
  }
  const texts = textsIn(hosts, selection).filter(({ host }) => linkOf(host) === null);
  const pieces = texts.map((text, index) => cutOut(text, `text-${index}`, steps));
  let link = '';
  texts.forEach(({ host }, index) => {
    if (index > 0 && texts[index - 1].host === previousOf(host)) {
      steps.push({ put: pieces[index], into: link });
    } else {
      link = `link-${index}`;
      steps.push({ new: 'link', fields: { url }, as: link }, { wrap: pieces[index], in: link });
    }
  });
  return { update: steps };
}

/** @type {(host: Host) => Host | undefined} */
const previousOf = host => host.parent?.children[indexOf(host) - 1];

/**
 * Cuts the selected part out of its text by a step, if it isn't all of it: what names the part.
 * @param {ReturnType<typeof textsIn>[0]} part
 * @param {string} name
 * @param {Step[]} steps
 */
function cutOut({ host, text, from, to }, name, steps) {
  const at = [from, to].filter(offset => offset > 0 && offset < text.length);
  if (at.length > 0) steps.push({ split: host.key, at, as: name });
  return from > 0 ? name : host.key;
}

/**
 * The steps that take links away, and leave what is in them.
 * @param {Host[]} links
 * @returns {Step[]}
 */
export const unlinked = links => links.map(({ key }) => ({ unwrap: key }));
