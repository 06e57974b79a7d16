// The parsers that HTML is read with: one that is given, that of a page, and none.
import assert from 'node:assert/strict';
import { spawnSync } from 'node:child_process';
import { createRequire } from 'node:module';
import { join } from 'node:path';
import test from 'node:test';
import { sliceFromHtml } from '../html.js';
import { short, skip } from './html.mjs';
import { web } from './helper.mjs';

function made(name, children = [], attributes = {}) {
  return { name, children, attributes: new Map(Object.entries(attributes)), text: null };
}

const madeText = (text, name = '#text') => ({ name, children: [], attributes: new Map(), text });

test('a parser that is given answers at once, and may give any tree', () => {
  const cell = made('td', [madeText('a')]);
  const list = text => `list{tag=ul listType=bullet start=1}[listitem{value=1}["${text}"]]`;
  const linked = text => `paragraph[link{url=/c}["${text}"]]`;
  const trees = [
    [made('h2', [madeText(' a '), madeText('b')]), 'heading{tag=h2}["a b"]'],
    [made('table', [madeText('t'), made('tr', [cell, madeText('u')]), cell]),
      'paragraph["t"] table[tablerow[tablecell[paragraph["a"]]]] paragraph["u"] paragraph["a"]'],
    [made('tr', [cell]), '"a"'],
    [made('ul', [madeText('a'), made('hr'), madeText('b')]), `${list('a')} horizontalrule ${list('b')}`],
    [made('a', [made('p', [madeText('a')]), made('p', [madeText('b')])], { href: '/c' }), 
      `${linked('a')} ${linked('b')}`],
  ];
  for (const [tree, said] of trees) {
    assert.equal(short(sliceFromHtml('', { parse: () => made('#document', [tree]) }).nodes), said);
  }
  let deep = madeText('a');
  for (let left = 100_000; left > 0; left -= 1) deep = made('div', [deep]);
  assert.equal(short(sliceFromHtml('', { parse: () => deep }).nodes), 'paragraph["a"]');
});

/** What a page has, as far as it is used: nodes of the DOM, over those of parse5. */
function pageParser() {
  const parse5 = createRequire(import.meta.url)('parse5');
  const asNode = ({ nodeName, tagName, attrs, childNodes, value, data }) => ({
    nodeName: tagName?.toUpperCase() ?? nodeName, localName: tagName, attributes: attrs, data: value ?? data,
    childNodes: childNodes?.map(asNode) ?? [],
  });
  return class {
    parseFromString(html, type) {
      assert.equal(type, 'text/html');
      return asNode(parse5.parse(html));
    }
  };
}

test('in a page its own parser answers at once', { skip }, async () => {
  const html = '<!doctype html><p class=a>b<!-- c --><b>d</b><ul><li>e</ul>';
  const { nodes } = await sliceFromHtml(html);
  globalThis.DOMParser = pageParser();
  try {
    assert.deepEqual(sliceFromHtml(html).nodes, nodes);
  } finally {
    delete globalThis.DOMParser;
  }
});

test('without a parser the error says so', () => {
  const program = `import(${JSON.stringify(join(web, 'html.js'))}).then(({ sliceFromHtml }) => sliceFromHtml('a'))
    .then(() => console.log('there is one'), ({ name, code }) => console.log(name, code));`;
  const env = { ...process.env, NODE_PATH: '' };
  const { stdout } = spawnSync(process.execPath, ['--input-type=module', '-e', program], { env, encoding: 'utf8' });
  assert.match(stdout, /^(ContentError parser|there is one)\n$/); // one of npm's may be beside the package
});
