// HTML that means no good: nothing comes through that runs or fetches, and nothing takes long.
import assert from 'node:assert/strict';
import test from 'node:test';
import { ContentError } from '../content-error.js';
import { htmlFromDocument, sliceFromHtml } from '../html.js';
import { again, pasted, short, skip, textOf } from './html.mjs';

const LONGEST = 15_000; // milliseconds of this process, however busy the machine is

const isContent = code => error => error instanceof ContentError && error.code === code;

/** A slice, or the code of the error. */
async function outcome(html) {
  const start = process.cpuUsage();
  try {
    return await sliceFromHtml(html);
  } catch (error) {
    assert.ok(error instanceof ContentError, String(error));
    return error.code;
  } finally {
    const took = process.cpuUsage(start).user / 1000;
    assert.ok(took < LONGEST, `${took} ms for ${html.slice(0, 60)}`);
  }
}

const addresses = ['javascript:alert(1)', ' JaVaScRiPt:alert(1)', 'java\nscript:alert(1)', '\u0001javascript:alert(1)',
  'data:text/html,x', 'vbscript:x', 'file:///etc/passwd', 'javascript&colon;alert(1)', 'blob:https://x/y',
  '&#106;avascript:alert(1)'];

test('addresses that run something are no links, read or written', { skip }, async () => {
  for (const url of addresses) {
    assert.equal(short((await sliceFromHtml(`<a href="${url}">a</a>`)).nodes), '"a"', url);
    const link = { type: 'link', url, children: [{ type: 'text', text: 'a' }] };
    assert.equal(htmlFromDocument({ nodes: [link] }), 'a', url);
    assert.equal(htmlFromDocument({ nodes: [{ type: 'embed', src: url }] }), '', url);
  }
  for (const url of ['https://a.b/?c=d&e', 'mailto:a@b', '/c', '#d', 'e/f', '//g/h', 'tel:1']) {
    const slice = await sliceFromHtml(`<a href="${url}">a</a>`);
    assert.equal(slice.nodes[0].url, url);
    assert.deepEqual(await again(slice), slice);
  }
});

test('what runs, fetches or hides leaves nothing but its text', { skip }, async () => {
  for (const [html, text] of [
    ['<script>alert(1)</script><style>a{}</style><template>b</template><!-- c -->d<noscript>e</noscript>', 'd'],
    ['<p onclick="alert(1)" style="background:url(//x)">a<img src=x onerror=alert(1) alt="b"></p>', 'ab'],
    ['<svg onload=alert(1)><script>alert(1)</script><foreignObject><p>a</p></foreignObject></svg>', 'a'],
    ['<math><mtext><table><mglyph><style><!--</style><img title="--&gt;&lt;img src=1 onerror=alert(1)&gt;">a', 'a'],
    ['<iframe src="javascript:alert(1)" srcdoc="<script>alert(1)</script>">a</iframe>b', 'b'],
    ['<object data="x">a</object><embed src="x"><base href="//x/"><meta http-equiv=refresh content="0;url=//x">b', 'b'],
    ['<form action="//x"><input value=a><button formaction="javascript:1">b</button></form>', 'b'],
    ['<p style="display:none">a</p><p hidden>b</p><span style="mso-hide:all">c</span>d', 'd'],
    ['<head><title>a</title></head><body>b', 'b'],
    ['<p>a\u0000b</p>', 'ab'],
    ['<td>a<tr>b</table></p></b>c', 'abc'],
    ['<plaintext>a<b>', 'a<b>'],
    ['<a href="/x"><a href="/y">a</a></a>', 'a'],
    ['\ud800a&#xd800;', '\ufffda\ufffd'],
  ]) {
    const slice = await outcome(html);
    assert.equal(textOf(slice.nodes), text, html);
    assert.doesNotMatch(JSON.stringify(slice), /alert|url\(|onclick|onerror/, html);
    assert.doesNotMatch(htmlFromDocument(slice), /script|url\(| on[a-z]+=/, html);
    pasted(slice);
  }
});

test('texts, styles and attributes of documents stay what they are when they are written', () => {
  const evil = '"><script>alert(1)</script><img src=x onerror=alert(1)>\'';
  const text = { type: 'text', text: evil, style: `color: red; background: url(//x); color:${evil}`, format: 255 };
  const link = { type: 'link', url: `/${evil}`, title: evil, rel: evil, target: evil, children: [text] };
  const children = [{ type: 'paragraph', children: [link] }];
  const cell = { type: 'tablecell', backgroundColor: `${evil};position:fixed`, children };
  const table = { type: 'table', children: [{ type: 'tablerow', children: [cell] }] };
  const html = htmlFromDocument({ root: { children: [table] } });
  const tags = html.match(/<[a-z]+(?: [a-z-]+="[^"<>]*")*>/g);
  assert.equal(html.split('<').length - 1, tags.length + html.split('</').length - 1);
  assert.doesNotMatch(html, /<(script|img)|style="[^"]*(url|position)/);
});

test('what is deep, long or left open', { skip }, async () => {
  const count = 100_000;
  for (const html of [
    '<div>'.repeat(count),
    '<div>'.repeat(200_000), // a megabyte
    '<b>'.repeat(count) + 'a',
    Array.from({ length: 20_000 }, (_, at) => `<font color=c${at}>`).join('') + '<p>a'.repeat(20_000),
    '<ul><li>'.repeat(20_000),
    '<table><tr><td>'.repeat(20_000),
    '<a href=/x>'.repeat(20_000) + 'a',
    '<div>a</div>'.repeat(20_000),
    'a'.repeat(1_048_577),
    `<p style="${'a:b;'.repeat(count)}">a`,
    `<p ${'a '.repeat(count)}>a`,
    '<'.repeat(count), '&'.repeat(count), '<!--'.repeat(count), '</p>'.repeat(20_000), '\u0000'.repeat(count),
    ' '.repeat(count) + 'a', 'a '.repeat(count), '<span> </span>'.repeat(10_000) + 'a',
    `<table>${'<td rowspan=1000 colspan=1000>'.repeat(2000)}${'<tr>'.repeat(2000)}</table>`,
    `<table>${'<tr><td rowspan=1000>'.repeat(2000)}</table>`,
    '<p style="mso-list:l0 level9 lfo1">a</p><p style="mso-list:l1 level999999999 lfo1">b</p>'.repeat(500),
  ]) {
    const slice = await outcome(html);
    if (typeof slice !== 'string') pasted(slice);
    else assert.match(slice, /^(size|depth)$/);
  }
});

test('what nests deeper than the core takes loses its shape, and not its text', { skip }, async () => {
  for (const [open, close] of [
    ['<table><tr><td>a', '</table>'], ['<ul><li>a', '</ul>'], ['<blockquote>a', '</blockquote>'],
    ['<ul><li>a<blockquote>b<table><tr><td>c', '</table></blockquote></ul>'], ['<ol>', 'a</ol>'],
  ]) {
    const count = open.length > 20 ? 60 : 100; // or parse5 has too many levels
    const html = open.repeat(count) + close.repeat(count);
    const slice = await outcome(html);
    const { root } = pasted(slice);
    assert.equal(textOf(root.children), html.replace(/<[^>]*>/g, ''));
    assert.equal(short((await again(slice)).nodes), short(slice.nodes));
  }
});

test('limits of nodes and characters, exactly', { skip }, async () => {
  pasted(await sliceFromHtml('<hr>'.repeat(16_382)));
  assert.equal(await outcome('<hr>'.repeat(16_383)), 'size');
  pasted(await sliceFromHtml('<p>' + '😀'.repeat(1_048_576)));
  assert.equal(await outcome('<p>' + '😀'.repeat(1_048_577)), 'size');
});

test('what is no HTML, no document and no option', async () => {
  for (const html of [undefined, null, 1, {}, Buffer.from('a')]) assert.throws(() => sliceFromHtml(html), TypeError);
  assert.throws(() => sliceFromHtml('a', { parse: 'parse5' }), TypeError);
  for (const document of [undefined, null, 'a', 1]) assert.throws(() => htmlFromDocument(document), TypeError);
  const deep = { type: 'quote' };
  let last = deep;
  for (let left = 100_000; left > 0; left -= 1) last = (last.children = [{ type: 'quote' }])[0];
  const text = { type: 'text', text: 'a' };
  const wrong = [
    undefined, ['a'], [1], [{}], [{ type: 'video' }], [{ type: 'tablerow' }], [{ type: 'list', children: [text] }],
    [{ type: 'text', text: 1 }], [{ type: 'heading', tag: 'script' }], [{ type: 'text', text: 'a', format: '1' }],
    [{ type: 'paragraph', children: {} }], [{ type: 'list', start: 1.5 }], [{ type: 'paragraph', direction: '"' }],
    [{ type: 'paragraph', format: 'x"' }], [{ type: 'link', url: '/', children: [{ type: 'link', url: '/' }] }],
  ];
  for (const nodes of wrong) assert.throws(() => htmlFromDocument({ nodes }), isContent('document'));
  assert.throws(() => htmlFromDocument({ nodes: [deep] }), isContent('depth'));
});
