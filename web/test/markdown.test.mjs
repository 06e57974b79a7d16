// Markdown and documents: what is read, what is written, that one is the other's, and what strangers send.
import assert from 'node:assert/strict';
import { readFileSync, readdirSync } from 'node:fs';
import { join } from 'node:path';
import test from 'node:test';
import { documentFromMarkdown, markdownFromDocument } from '../markdown.js';
import { newCore, top } from './helper.mjs';
import { madeDocument } from './markdown-documents.mjs';
import { texts } from './markdown-examples.mjs';
import { asLoaded, chance, goAround, letters, madeText } from './markdown.mjs';

const hasParser = await documentFromMarkdown('').then(() => true, () => false);
const TEXTS = 2000, DOCUMENTS = 300; // made ones
const MEGABYTE = 1_000_000;
const SOON = 10_000; // milliseconds of the processor: many times what an idle machine takes
const skip = hasParser ? false : 'there is no markdown-it: NODE_PATH may say where it is';
const editor = (await newCore()).open();

/** A node in few words: its type or text, what it has beside, and its children. */
function brief(node) {
  const { type, text, format, children, tag, listType, start, checked, url, title, src, headerState } = node;
  if (type === 'text') return format ? [text, format] : text;
  const beside = { heading: tag, list: `${listType} ${start}`, listitem: checked, link: `${url} ${title}`, embed: src };
  const told = [type, beside[type], type === 'tablecell' ? headerState : undefined, format || undefined];
  return [told.filter(word => word !== undefined).join(' '), ...(children ?? []).map(brief)];
}

async function briefOf(text) {
  const { document, lost } = await documentFromMarkdown(text);
  asLoaded(editor, document);
  return [document.root.children.map(brief), lost];
}

const document = (...children) => ({ root: { type: 'root', children } });
const text = (words, format = 0) => ({ type: 'text', text: words, format });
const paragraph = (...children) => ({ type: 'paragraph', children });
const markdownOf = (...children) => markdownFromDocument(document(...children));
const codeOf = act => Promise.resolve().then(act).then(() => null, error => error.code ?? error.name);

test('blocks of Markdown are those of a document', { skip }, async () => {
  assert.deepEqual(await briefOf('# a\nb\n\n> c\n\n***\n\n    d\n     e'), [[
    ['heading h1', 'a'], ['paragraph', 'b'], ['quote', 'c'], ['horizontalrule'],
    ['paragraph', ['d', 16], ['linebreak'], [' e', 16]],
  ], []]);
  assert.deepEqual(await briefOf('3. a\n   - b\n4. c\n\n- [x] d\n- [ ] e'), [[
    ['list number 3', ['listitem', 'a'], ['listitem', ['list bullet 1', ['listitem', 'b']]], ['listitem', 'c']],
    ['list check 1', ['listitem true', 'd'], ['listitem false', 'e']],
  ], []]);
  assert.deepEqual(await briefOf('| a | b |\n|:-:|---|\n| c\\|d | `e\\|f` |'), [[['table',
    ['tablerow', ['tablecell 1', ['paragraph center', 'a']], ['tablecell 1', ['paragraph', 'b']]],
    ['tablerow', ['tablecell 0', ['paragraph center', 'c|d']], ['tablecell 0', ['paragraph', ['e|f', 16]]]],
  ]], []]);
  assert.deepEqual(await briefOf(''), [[['paragraph']], []]);
});

test('inline content of Markdown is that of a document', { skip }, async () => {
  assert.deepEqual(await briefOf('a\nb **c *d*** ~~e~~ `f` <b>\\\n[g](/h "i") ![j](k)'), [[['paragraph',
    'a b ', ['c ', 1], ['d', 3], ' ', ['e', 4], ' ', ['f', 16], ' <b>', ['linebreak'],
    ['link /h i', 'g'], ' ', ['embed k'],
  ]], ['descriptions of images']]);
});

test('what a document has no place for is told once', { skip }, async () => {
  const lost = async words => (await documentFromMarkdown(words)).lost;
  assert.deepEqual(await lost('```js\na\n```\n\n```c\nb\n```'), ['languages of code blocks']);
  assert.deepEqual(await lost('> > a'), ['quotes in quotes']);
  assert.deepEqual(await lost('> a\n> ***'), ['quotes around tables and rules']);
  assert.deepEqual(await lost('- # a\n  b\n  > c\n  ***'),
    ['quotes in lists', 'headings in lists', 'paragraphs of items, which became lines', 'rules in lists']);
  assert.deepEqual(await lost('[](/a) ![](/b "c")'), ['links without text', 'titles of images']);
  assert.deepEqual(await lost('| a |\n|---|\n| b | c |'), ['cells beyond the columns of a table']);
  assert.deepEqual(await lost('999999999. a'), ['numbers above 1,000,000']);
  assert.deepEqual(await lost('a\ud800b\0'), ['characters that are none: they became U+FFFD']);
});

test('what Markdown has no form for is told once', () => {
  const lost = (...children) => markdownOf(...children).lost;
  assert.deepEqual(lost(paragraph(text('a', 8), text('b', 8 | 128))), ['underline', 'highlight']);
  assert.deepEqual(lost({ ...paragraph(text('a')), format: 'center', indent: 2, direction: 'rtl' }),
    ['alignment', 'indentation', 'the direction of blocks']);
  assert.deepEqual(lost(paragraph(), paragraph(text('a'), { type: 'linebreak' })),
    ['empty paragraphs', 'line breaks at the end of a block']);
  const cell = { type: 'tablecell', headerState: 2, colSpan: 2, backgroundColor: 'red', children: [paragraph(text('a'))] };
  assert.deepEqual(lost({ type: 'table', children: [{ type: 'tablerow', children: [cell] }] }),
    ['merged cells', 'backgrounds of cells', 'headers of rows']);
  const link = { type: 'link', url: 'u', rel: 'nofollow', children: [text('a')] };
  assert.deepEqual(lost(paragraph(link, { ...text('b'), style: 'color: red', mode: 'token' })),
    ['how links open', 'styles', 'texts that go as a whole']);
});

test('formats are written so that they are read', () => {
  const written = (...runs) => markdownOf(paragraph(...runs)).markdown;
  assert.equal(written(text('un'), text('frig', 2), text('able')), 'un*frig*able\n');
  assert.equal(written(text('a '), text(' b ', 1), text('c')), 'a  **b** c\n');
  assert.equal(written(text('a ', 1), text('b', 3), text(' '), text('c', 2)), '**a _b_** *c*\n');
  assert.equal(written(text('a'), text('"b"', 1), text('c')), '&#97;**"b"**&#99;\n');
  assert.equal(written(text('a', 8), text('b', 128)), 'ab\n');
  assert.equal(written(text('`', 16)), '`` ` ``\n');
});

test('texts are escaped where they would be read otherwise, and nowhere else', () => {
  const written = words => markdownOf(paragraph(text(words))).markdown.trimEnd();
  const cases = {
    '# a': '\\# a', '#a': '#a', '1. a': '1\\. a', '1.5': '1.5', '- a': '\\- a', '-5': '-5', '---': '\\---', '===': '\\===', '> a': '\\> a',
    'snake_case': 'snake_case', '_a': '\\_a', 'a*b': 'a\\*b', '[a]': '\\[a\\]', 'a < b': 'a \\< b', 'AT&T': 'AT\\&T', 'a & b': 'a & b',
    ' a ': '&#32;a&#32;', 'wow!': 'wow!', 'a`b': 'a\\`b', '~~a': '\\~\\~a', 'C:\\': 'C:\\\\', '| - |': '\\| - |',
  };
  for (const [words, markdown] of Object.entries(cases)) assert.equal(written(words), markdown);
});

test('texts for the rules of CommonMark go around', { skip }, async () => {
  for (const words of texts) await goAround(editor, words);
});

test('made texts go around', { skip }, async () => {
  for (let seed = 1; seed <= TEXTS; seed += 1) await goAround(editor, madeText(chance(seed * 7919)));
});

/** Writes a document and reads it: nothing of its texts is lost, and what is read goes around. */
async function keepsTexts(value) {
  const { markdown } = markdownFromDocument(value);
  const { document: read } = await goAround(editor, markdown);
  assert.equal(letters(read.root), letters(value.root), markdown);
}

test('texts of documents are kept', { skip }, async () => {
  const folder = join(top, 'examples', 'documents');
  for (const file of readdirSync(folder)) await keepsTexts(asLoaded(editor, JSON.parse(readFileSync(join(folder, file), 'utf8'))));
  for (let seed = 1; seed <= DOCUMENTS; seed += 1) await keepsTexts(asLoaded(editor, madeDocument(chance(seed * 104_729))));
});

test('a slice is written as its nodes are', () => {
  assert.equal(markdownFromDocument({ namespace: 'lexical-core', nodes: [text('a', 1), text('b')] }).markdown, '**a**b\n');
  assert.equal(markdownFromDocument({ namespace: 'lexical-core', nodes: [paragraph(text('a'))] }).markdown, 'a\n');
  assert.equal(markdownFromDocument({ namespace: 'lexical-core', nodes: [] }).markdown, '');
});

test('addresses that run something are dropped', { skip }, async () => {
  const bad = ['javascript:alert(1)', 'JAVA&#10;SCRIPT:a', 'vbscript:a', 'data:text/html,a', '<java script:a>'];
  for (const address of bad) {
    assert.deepEqual(await briefOf(`[a](${address})![b](${address})`),
      [[['paragraph', 'ab']], ['links with unsafe addresses', 'images with unsafe addresses']]);
  }
  const link = { type: 'link', url: 'javascript:a', children: [text('b')] };
  assert.deepEqual(markdownOf(paragraph(link)), { markdown: 'b\n', lost: ['links with unsafe addresses'] });
});

/** Milliseconds of the processor that were used since a usage. */
function usedSince(usage) {
  const { user, system } = process.cpuUsage(usage);
  return (user + system) / 1000;
}

test('huge texts of one piece are read soon, or refused', { skip }, async () => {
  const short = ['[', '*', '_', '`', '<', '>', '!', '~', '&', '\\', '#', '|', '-'];
  const long = ['![', '[]', '[*', '*_', '[\n', '*\n', '1.', '- ', '**a ', '[a](', '[a](<', '[a](b (', '[a]: ', 'a\n\n'];
  for (const piece of [...short, ...long]) {
    const usage = process.cpuUsage();
    const length = piece.length > 1 ? MEGABYTE / 10 : MEGABYTE; // so that all take seconds, not minutes
    const code = await codeOf(() => documentFromMarkdown(piece.repeat(length / piece.length)));
    assert.ok(code === null || code === 'size' || code === 'depth', `${piece} ${code}`);
    assert.ok(usedSince(usage) < SOON, `${JSON.stringify(piece)} took ${usedSince(usage)} ms`);
  }
});

test('deep texts are flattened, or refused', { skip }, async () => {
  assert.equal(await codeOf(() => documentFromMarkdown('>'.repeat(MEGABYTE))), 'depth');
  assert.equal(await codeOf(() => documentFromMarkdown('- '.repeat(1000) + 'a')), 'depth');
  assert.equal(await codeOf(() => documentFromMarkdown('x'.repeat(1_048_577))), 'size');
  assert.equal(await codeOf(() => documentFromMarkdown('a\n\n'.repeat(16_384))), 'size');
  assert.equal(await codeOf(() => documentFromMarkdown('a\n'.repeat(131_073))), 'size');
  assert.equal(await codeOf(() => documentFromMarkdown('*'.repeat(262_146) + ' a')), 'size');
  const { lost } = await goAround(editor, '> ' + '- '.repeat(60) + 'a');
  assert.deepEqual(lost, ['levels of lists below 22']);
});

test('a table can not have more cells than a document', { skip }, async () => {
  const wide = `|${'a|'.repeat(3000)}\n|${'-|'.repeat(3000)}\n${'|\n'.repeat(3000)}`;
  assert.equal(await codeOf(() => documentFromMarkdown(wide)), 'size');
});

test('what is no document is refused, and mistakes are errors', async () => {
  for (const value of [{}, { root: null }, { root: { children: 1 } }, { nodes: 2 }, document({}), document({ type: 'nothing' }),
    document({ type: 'listitem' }), document(paragraph(paragraph())), document(paragraph({ type: 'text', text: 1 }))]) {
    assert.equal(await codeOf(() => markdownFromDocument(value)), 'document', JSON.stringify(value));
  }
  let deep = paragraph();
  for (let level = 0; level < 100_000; level += 1) deep = { type: 'quote', children: [deep] };
  assert.equal(await codeOf(() => markdownFromDocument(document(deep))), 'depth');
  assert.equal(await codeOf(() => documentFromMarkdown(1)), 'TypeError');
  assert.equal(await codeOf(() => markdownFromDocument(null)), 'TypeError');
});

test('a large document is written soon', { skip }, async () => {
  const children = Array.from({ length: 4000 }, (_, at) => paragraph(text(`a${at} `), text('b', 1), text(' c', 2)));
  const usage = process.cpuUsage();
  const { markdown } = markdownFromDocument(document(...children));
  assert.ok(usedSince(usage) < SOON); // well under a second on a machine that does nothing else
  assert.ok(markdown.length > 4000 * 10);
});
