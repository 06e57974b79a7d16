// Points through commits: the rules one by one, and random edits, in which the core tells where its own points went.
import assert from 'node:assert/strict';
import test from 'node:test';
import { ContentError } from '../content-error.js';
import { Hosts } from '../hosts.js';
import { mapPoint } from '../selection.js';
import { newCore } from './helper.mjs';

const core = await newCore();

/** Hosts and keys: a paragraph 1 with a text 2, and another paragraph 3 with a text 4. */
function twoParagraphs(first = 'hello world', second = 'other') {
  const editor = core.open(), hosts = new Hosts();
  hosts.apply(editor.line({ update: [{ append: first }, { append: second }] }).ops);
  return { editor, hosts };
}

/** Where offsets of a text go as the text becomes another. */
function offsetsIn(text, other, ...more) {
  const { hosts } = twoParagraphs(text);
  const ops = [['text', 2, other], ...more];
  return Array.from({ length: text.length + 1 }, (_, offset) => mapPoint(hosts, ops, [2, offset, 'text'])?.[1] ?? null);
}

test('an offset stays before a change in its text and moves behind it', () => {
  assert.deepEqual(offsetsIn('abcd', 'abXcd'), [0, 1, 2, 4, 5]);
  assert.deepEqual(offsetsIn('abcd', 'ad'), [0, 1, null, 1, 2]);
  assert.deepEqual(offsetsIn('abcd', 'aXYZd'), [0, 1, null, null, 5]);
  assert.deepEqual(offsetsIn('abcd', 'abcd'), [0, 1, 2, 3, 4]);
  assert.deepEqual(offsetsIn('ab', 'abX'), [0, 1, 2]);
  assert.deepEqual(offsetsIn('ab', 'Xab'), [0, 2, 3]);
  assert.deepEqual(offsetsIn('abc', 'ab'), [0, 1, 2, 2]);
});

test('where the same change may be at several places, none of them is told', () => {
  assert.deepEqual(offsetsIn('baac', 'baaac'), [0, 1, null, null, 5]);
  assert.deepEqual(offsetsIn('baaac', 'baac'), [0, 1, null, null, 3, 4]);
  assert.deepEqual(offsetsIn('abab', 'ab'), [0, null, null, null, 2]);
});

test('halves of surrogate pairs are no common part', () => {
  assert.deepEqual(offsetsIn('a\u{1f600}b', 'a\u{1f601}b'), [0, 1, null, null, 4]);
  assert.deepEqual(offsetsIn('a\u{1f600}b', 'a\u{1fa00}b'), [0, 1, null, null, 4]);
});

test('behind a cut it is not told where a piece may have gone to another text', () => {
  assert.deepEqual(offsetsIn('abcd', 'ab', ['text', 4, 'cd']), [0, 1, 2, null, null]);
  assert.deepEqual(offsetsIn('abcd', 'ab', ['create', 5, 5, 'span', {}, 'cd', false]), [0, 1, 2, null, null]);
});

test('a text that another host shows is the same', () => {
  const { editor, hosts } = twoParagraphs();
  const { ops } = editor.line({ update: [{ set: 2, fields: { format: 1 } }] });
  assert.ok(ops.some(([name]) => name === 'create'));
  assert.deepEqual(mapPoint(hosts, ops, [2, 4, 'text']), [2, 4, 'text']);
  assert.deepEqual(mapPoint(hosts, ops, [1, 1, 'element']), [1, 1, 'element']);
  assert.equal(mapPoint({ hosts }, editor.line({ update: [{ remove: 1 }] }).ops, [2, 4, 'text']), null);
});

/** Where offsets in the root go: `before` and `after` are letters of paragraphs. */
function offsetsAmong(before, after) {
  const hosts = new Hosts(), keyOf = letter => letter.charCodeAt(0);
  const create = letter => ['create', keyOf(letter), keyOf(letter), 'p', {}, null, false];
  hosts.apply([...before].flatMap(letter => [create(letter), ['place', 0, keyOf(letter), null]]));
  const gone = [...before].filter(letter => !after.includes(letter)).map(letter => ['drop', keyOf(letter)]);
  const come = [...after].filter(letter => !before.includes(letter)).map(create);
  const ops = [...gone, ...come, ...[...after].map(letter => ['place', 0, keyOf(letter), null])];
  return [0, ...before].map((_, offset) => mapPoint(hosts, ops, [0, offset, 'element'])?.[1] ?? null);
}

test('an offset among children stays right behind the child that it was behind', () => {
  assert.deepEqual(offsetsAmong('abc', 'abc'), [0, 1, 2, 3]);
  assert.deepEqual(offsetsAmong('abc', 'axbc'), [0, 1, 3, 4]);
  assert.deepEqual(offsetsAmong('abc', 'ac'), [0, 1, 1, 2]);
  assert.deepEqual(offsetsAmong('abc', 'axc'), [0, 1, null, 3]);
  assert.deepEqual(offsetsAmong('abc', 'xabc'), [0, 2, 3, 4]);
  assert.deepEqual(offsetsAmong('abcd', 'acbd'), [0, 1, null, null, 4]);
  assert.deepEqual(offsetsAmong('abc', ''), [0, 0, 0, 0]);
  assert.deepEqual(offsetsAmong('abc', 'cab'), [0, null, null, null]);
});

test('a point that the tree before has not is null, and what is no point or operation is named', () => {
  const { hosts } = twoParagraphs();
  const texts = [[9, 0, 'text'], [2, 12, 'text'], [1, 0, 'text']];
  for (const point of [...texts, [2, 0, 'element'], [1, 2, 'element'], [0, 3, 'element']]) {
    assert.equal(mapPoint(hosts, [], point), null, String(point));
  }
  for (const point of [null, [], [2, -1, 'text'], [2, 0.5, 'text'], [2, 0, 'word'], ['2', 0, 'text']]) {
    assert.throws(() => mapPoint(hosts, [], point), TypeError);
  }
  const circle = [['place', 3, 1, null], ['place', 1, 3, null]];
  for (const ops of [[null], ['text'], [[]], [['move', 1, 2]], [['place', 1, 2, 99]], circle]) {
    assert.throws(() => mapPoint(hosts, ops, [1, 0, 'element']), ContentError, JSON.stringify(ops));
  }
});
