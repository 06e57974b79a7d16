// Documents of the core, made by chance, with what Markdown has a form for and what is hard to write in it.
import { oneOf } from './markdown.mjs';

const pieces = [
  'a', 'bc ', ' d', '*', '_', '**', '`', '[', ']', '(u)', '!', '<', '>', '&', 'amp;', '#', '-', '+', '1.', '|', '\\', '~~',
  '\n', '\t', '  ', '"', 'é', '😀', '€', '\u00a0', '\u2028', '\ufeff', 'x_y', '\r', '=', '---', ':-:', '[x] ', 'http://a.b',
];
const addresses = ['u', 'x y', '<>', 'a|b', 'a\\b', '&#35;)(', 'a"b)', '&amp;', 'javascript:a'];
const titles = [null, 't', '"q"', 'a\nb', '|\\', ' s '];

/** Each of a list's makers has the same chance. */
const several = (random, least, bound, make) => Array.from({ length: least + random(bound) }, make);

function inline(random, inLink) {
  const kind = random(12);
  if (kind === 0) return { type: 'linebreak' };
  if (kind === 1) return { type: 'tab', format: random(32) };
  if (kind === 2) return { type: 'embed', src: oneOf(random, addresses) };
  if (kind === 3 && !inLink) {
    const children = several(random, 1, 4, () => inline(random, true));
    return { type: 'link', url: oneOf(random, addresses), title: oneOf(random, titles), children };
  }
  const text = several(random, 1, 4, () => oneOf(random, pieces)).join('');
  return { type: 'text', text, format: oneOf(random, [0, 0, 0, 1, 2, 3, 4, 5, 6, 7, 8, 16, 17, 20, 128]) };
}

const inlines = random => several(random, 0, 6, () => inline(random, false));
const paragraph = random => ({ type: 'paragraph', children: inlines(random) });
const heading = random => ({ type: 'heading', tag: `h${1 + random(6)}`, children: inlines(random) });

function item(random, depth) {
  const nested = bound => depth > 0 && random(bound) === 0 ? [list(random, depth - 1)] : [];
  const children = random(3) === 0 ? nested(1) : [...inlines(random), ...nested(4), ...(random(4) ? [] : inlines(random))];
  return { type: 'listitem', checked: oneOf(random, [null, true, false]), children };
}

function list(random, depth) {
  const children = several(random, 1, 3, () => item(random, depth));
  return { type: 'list', listType: oneOf(random, ['bullet', 'number', 'check']), start: random(5), children };
}

function quote(random) {
  const makers = [paragraph, heading, () => list(random, 1)];
  return { type: 'quote', children: random(2) ? inlines(random) : several(random, 1, 3, () => oneOf(random, makers)(random)) };
}

function table(random) {
  const cell = () => ({ type: 'tablecell', headerState: random(2), children: several(random, 1, 2, () => paragraph(random)) });
  const children = several(random, 1, 3, () => ({ type: 'tablerow', children: several(random, 1, 3, cell) }));
  return { type: 'table', children };
}

const makers = [paragraph, paragraph, heading, quote, random => list(random, 2), table, () => ({ type: 'horizontalrule' })];

/** A document of a few blocks. */
export function madeDocument(random) {
  return { root: { type: 'root', children: several(random, 1, 4, () => oneOf(random, makers)(random)) } };
}
