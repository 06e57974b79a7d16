// HTML to slices and back: what the core takes of it, and that writing and reading again changes nothing.
import assert from 'node:assert/strict';
import { createRequire } from 'node:module';
import { readFileSync, readdirSync } from 'node:fs';
import { join } from 'node:path';
import test from 'node:test';
import { htmlFromDocument, sliceFromHtml } from '../html.js';
import { chance, someDocument, someHtml } from './html-chance.mjs';
import { again, pasted, short, skip, textOf } from './html.mjs';
import { top, web } from './helper.mjs';

/** The text that parse5 finds, without white space, and with what stands for images. */
function textByParser(html) {
  const parse5 = createRequire(import.meta.url)('parse5');
  const read = node => {
    if (node.nodeName === '#text') return node.value;
    if (node.nodeName === 'img') return node.attrs.find(({ name }) => name === 'alt')?.value ?? '';
    return (node.childNodes ?? []).map(read).join('');
  };
  return read(parse5.parse(html, { scriptingEnabled: false })).replace(/\s+/g, '');
}

test('HTML by chance is pasted with all of its text, and reads the same once it was written', { skip }, async () => {
  for (let seed = 0; seed < 1000; seed += 1) {
    const html = someHtml(chance(seed));
    const slice = await sliceFromHtml(html);
    const { root } = pasted(slice);
    const text = textByParser(html);
    assert.equal(textOf(root.children), text, `seed ${seed}: ${html}`);
    assert.equal(textOf(slice.nodes), text, `seed ${seed}: ${html}`);
    assert.equal(short((await again(slice)).nodes), short(slice.nodes), `seed ${seed}: ${html}`);
  }
});

const samples = join(web, 'test', 'samples');

test('samples are read as they look', { skip }, async () => {
  const names = readdirSync(samples).filter(name => name.endsWith('.html'));
  assert.equal(names.length, 7);
  for (const name of names) {
    const slice = await sliceFromHtml(readFileSync(join(samples, name), 'utf8'));
    assert.deepEqual(slice, JSON.parse(readFileSync(join(samples, name.replace(/html$/, 'json')), 'utf8')), name);
    assert.deepEqual(pasted(slice).root.children, slice.nodes, name);
    assert.deepEqual(await again(slice), slice, name);
  }
});

test('documents of the examples', { skip }, async () => {
  for (const name of readdirSync(join(top, 'examples', 'documents'))) {
    const document = JSON.parse(readFileSync(join(top, 'examples', 'documents', name), 'utf8'));
    const slice = await sliceFromHtml(htmlFromDocument(document));
    assert.equal(textOf(slice.nodes), textOf(document.root.children), name);
    assert.deepEqual(await again(slice), slice, name);
    pasted(slice);
  }
});

test('documents by chance are the same once they were written and read', { skip }, async () => {
  for (let seed = 0; seed < 100; seed += 1) {
    const document = someDocument(chance(seed));
    const html = htmlFromDocument(document);
    const slice = await sliceFromHtml(html);
    assert.equal(textOf(slice.nodes), textOf(document.root.children), `seed ${seed}: ${html}`);
    assert.equal(short((await again(slice)).nodes), short(slice.nodes), `seed ${seed}: ${html}`);
    pasted(slice);
  }
});
