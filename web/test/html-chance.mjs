// HTML and documents made by chance, the same for a seed.

/** Numbers below a given one, always the same for a seed. */
export function chance(seed) {
  let state = seed * 2_654_435_761 + 1 >>> 0;
  return below => {
    state = state + 0x6d2b79f5 >>> 0;
    let mixed = Math.imul(state ^ state >>> 15, state | 1);
    mixed ^= mixed + Math.imul(mixed ^ mixed >>> 7, mixed | 61);
    return ((mixed ^ mixed >>> 14) >>> 0) % below;
  };
}

const names = [
  'p', 'div', 'h1', 'h3', 'blockquote', 'ul', 'ol', 'ol start=4', 'li', 'li', 'li', 'table', 'tr', 'td', 'th',
  'tbody', 'thead', 'caption', 'pre', 'b', 'i', 'u', 's', 'code', 'sub', 'sup', 'mark', 'a href=/x title=t',
  'a href="javascript:1"', 'span', 'dl', 'dt', 'section', 'center', 'td colspan=3', 'td rowspan=2',
  'td rowspan=0 bgcolor=red', 'th scope=row', 'p dir=rtl align=right',
  'span style="font-weight:bold;background:#ff0"', 'b style="font-weight:normal"', 'div style="white-space:pre-wrap"',
  'li role=checkbox', 'p style="mso-list:l0 level2 lfo1"', 'p style="mso-list:l1 level1 lfo2"',
  'a href=https://example.org/ target=w', 'button', 'label', 'p style="margin-left:80px"', 'font color=red',
  'unknown-tag', 'svg', 'math', 'select', 'option', 'form', 'details', 'summary',
];
const texts = ['a', ' b ', 'c\n d', ' ', '\t', 'e  f', '\n', 'é😀', '&nbsp;', 'g&amp;h', '&lt;i&gt;', 'j'];
const leaves = [
  '<br>', '<hr>', '<input type=checkbox checked>', '<img alt="k l" src=x>', '<!-- m -->', '<input type=checkbox>',
  '<wbr>',
];

/** HTML by chance, with tags that are left open or stand where they may not. */
export function someHtml(random, depth = 3 + random(3)) {
  let html = '';
  for (let left = random(4) + (depth > 3 ? 1 : 0); left > 0; left -= 1) {
    const kind = random(10);
    if (kind < 3 || depth === 0) html += texts[random(texts.length)];
    else if (kind === 3) html += leaves[random(leaves.length)];
    else {
      const name = names[random(names.length)];
      html += `<${name}>${someHtml(random, depth - 1)}${random(8) === 0 ? '' : `</${name.split(' ')[0]}>`}`;
    }
  }
  return html;
}

const pickBy = random => (...values) => values[random(values.length)];
const manyBy = random => (most, make) => Array.from({ length: random(most + 1) }, make);
const strings = ['a', ' b', 'c ', '  ', 'd\u00a0', 'e  f', '<&>"', '😀', ' '];
const urls = ['/a', 'https://example.org/?b=1&c="', '#d'];

/** Makers of inline nodes. */
function inlinesBy(random) {
  const pick = pickBy(random), many = manyBy(random);
  const text = () => ({ type: 'text', text: pick(...strings), format: pick(0, 0, 1, 3, 255 - 32, 16, 128, 64) });
  const tab = () => ({ type: 'tab', format: pick(0, 1) });
  const embed = () => ({ type: 'embed', src: 'https://example.org/e' });
  const inline = () => pick(text, text, text, () => ({ type: 'linebreak' }), tab, embed)();
  const link = () => ({
    type: 'link', url: pick(...urls), title: pick(null, 'e"f'), target: pick(null, '_blank'),
    children: [text(), ...many(2, inline)],
  });
  return { text, inlines: () => many(4, () => pick(inline, inline, inline, link)()) };
}

/** A document by chance, of all that a document may hold and HTML can say. */
export function someDocument(random) {
  const pick = pickBy(random), many = manyBy(random);
  const { text, inlines } = inlinesBy(random);
  const looks = () => ({
    direction: pick('ltr', 'rtl', null),
    format: pick('', 'center', 'left', 'right', 'justify', 'end'),
    indent: pick(0, 1, 3),
  });
  const look = () => (random(4) === 0 ? looks() : {});
  const paragraph = () => ({ type: 'paragraph', ...look(), children: inlines() });
  const heading = () => ({ type: 'heading', tag: `h${1 + random(6)}`, ...look(), children: inlines() });
  const item = depth => ({
    type: 'listitem', ...look(), checked: pick(null, true, false),
    children: depth > 0 && random(3) === 0 ? [list(depth - 1), ...many(1, text)] : inlines(),
  });
  const list = depth => ({
    type: 'list', listType: pick('bullet', 'number', 'check'), start: pick(1, 1, 7), ...look(),
    children: [item(depth), ...many(3, () => item(depth))],
  });
  const inQuote = () => [paragraph(), ...many(2, () => pick(paragraph, heading, () => list(1))())];
  const quote = () => ({ type: 'quote', ...look(), children: pick(inlines, inQuote)() });
  const cell = depth => ({
    type: 'tablecell', headerState: pick(0, 0, 0, 1, 2, 3), colSpan: 1 + random(2), rowSpan: 1 + random(2),
    backgroundColor: pick(null, 'red', '#abc'), ...look(), children: [block(depth), ...many(1, () => block(depth))],
  });
  const row = depth => ({ type: 'tablerow', children: [cell(depth), ...many(2, () => cell(depth))] });
  const table = depth => ({ type: 'table', ...look(), children: [row(depth), ...many(2, () => row(depth))] });
  const rule = () => ({ type: 'horizontalrule' });
  const tableIn = depth => (depth > 0 ? table(depth - 1) : rule());
  const block = depth => pick(paragraph, paragraph, heading, quote, () => list(1), () => tableIn(depth))();
  return { root: { children: [block(1), ...many(3, () => block(1))] } };
}
