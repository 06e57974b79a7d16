// The tree of hosts, by what the core shows after each commit.
import assert from 'node:assert/strict';
import { readFileSync, readdirSync } from 'node:fs';
import { join } from 'node:path';
import test from 'node:test';
import { Hosts } from '../hosts.js';
import { optionsOf } from '../words.js';
import { compareViews, follow } from './following.mjs';
import { examples, linesOf, newCore, top } from './helper.mjs';
import { Random, randomLine } from './random.mjs';
import { storedSessions } from './rows.mjs';

test('each document of examples', async () => {
  const core = await newCore();
  const files = readdirSync(join(top, 'examples', 'documents'));
  for (const file of files) {
    const document = JSON.parse(readFileSync(join(top, 'examples', 'documents', file), 'utf8'));
    const editor = core.open();
    const hosts = follow(editor, [Buffer.from(JSON.stringify({ load: document }))]);
    assert.ok(hosts.size > 5, file);
    editor.close();
  }
  assert.ok(files.length >= 4);
});

test('each session of examples, after each commit', async () => {
  const core = await newCore();
  for (const { input } of examples) {
    const editor = core.open();
    follow(editor, linesOf(input));
    editor.close();
  }
});

test('the worked rows, after each commit, or now and then where the view is large', async () => {
  const core = await newCore();
  let run = 0;
  for (const { words, input } of storedSessions()) {
    const options = optionsOf(words);
    if (!options || 'needs' in options) continue;
    const editor = core.open(options);
    follow(editor, linesOf(Buffer.from(input, 'latin1')));
    editor.close();
    run += 1;
  }
  assert.ok(run > 280, `${run} sessions were run`);
});

test('random sessions, after each commit', async () => {
  const core = await newCore();
  const names = new Map();
  for (let seed = 0; seed < 500; seed += 1) {
    const random = new Random(seed), editor = core.open(), hosts = new Hosts();
    for (let index = 0; index < 40; index += 1) {
      const { ops } = editor.line(randomLine(random, hosts));
      if (!ops) continue;
      for (const [name] of ops) names.set(name, (names.get(name) ?? 0) + 1);
      hosts.apply(ops);
      compareViews(hosts, editor);
    }
    editor.close();
  }
  for (const name of ['create', 'place', 'drop', 'text', 'attr', 'break']) assert.ok(names.get(name) > 300, name);
});

test('hosts as objects', () => {
  const hosts = new Hosts();
  hosts.apply([
    ['create', 1, 7, 'p', { dir: 'rtl' }, null, true],
    ['create', 2, 8, 'mark>strong', { class: 'bold highlight' }, 'a', false],
    ['create', 3, 9, 'br', {}, null, false],
    ['place', 0, 1, null], ['place', 1, 3, null], ['place', 1, 2, 3],
  ]);
  const paragraph = hosts.get(1);
  assert.equal(hosts.ofKey(7), paragraph);
  assert.deepEqual(paragraph.children.map(({ id }) => id), [2, 3]);
  assert.deepEqual([...paragraph.attributes], [['dir', 'rtl']]);
  assert.deepEqual([paragraph.tag, paragraph.text, paragraph.ending, paragraph.parent], ['p', null, true, hosts.root]);
  assert.deepEqual([hosts.root.id, hosts.root.key, hosts.root.tag, hosts.root.parent], [0, 0, 'div', null]);
  const text = '<mark class="bold highlight"><strong>a</strong></mark>';
  assert.equal(hosts.html(), `<div><p dir="rtl">${text}<br><br></p></div>`);
  hosts.apply([['drop', 1]]);
  assert.deepEqual([hosts.size, hosts.get(2), hosts.ofKey(9), hosts.html()], [1, undefined, undefined, '<div></div>']);
});

test('of several hosts of a key the one made last is found, until it is dropped', () => {
  const hosts = new Hosts();
  hosts.apply([1, 2, 3].map(id => ['create', id, 9, 'p', {}, null, false]));
  const found = [];
  for (const id of [2, 3, 1]) {
    found.push(hosts.ofKey(9).id);
    hosts.apply([['drop', id]]);
  }
  assert.deepEqual([...found, hosts.ofKey(9)], [3, 3, 1, undefined]);
});

test('a fold says what host 0 has got, and leaves out what is not placed', () => {
  const hosts = new Hosts();
  hosts.apply([['attr', 0, 'dir', 'rtl'], ['break', 0, true], ['create', 1, 1, 'p', {}, null, false]]);
  assert.deepEqual(hosts.fold(), [['attr', 0, 'dir', 'rtl'], ['break', 0, true]]);
  const again = new Hosts();
  again.apply(hosts.fold());
  assert.equal(again.html(), '<div dir="rtl"><br></div>');
});

test('a tree that is deep or wide is walked in proportion to its size', () => {
  const count = 30_000, hosts = new Hosts();
  const made = Array.from({ length: count }, (_, index) => ['create', index + 1, index + 1, 'div', {}, null, false]);
  const nested = Array.from({ length: count - 1 }, (_, index) => ['place', count - index - 1, count - index, null]);
  hosts.apply([...made, ...nested, ['place', 0, 1, null]]);
  assert.equal(hosts.html(), '<div>'.repeat(count + 1) + '</div>'.repeat(count + 1));
  hosts.apply([['drop', 1]]);
  hosts.apply(made.map(([, id]) => ['create', count + id, id, 'p', {}, null, false]));
  hosts.apply(made.map(([, id]) => ['place', 0, count + id, id > 1 ? count + id - 1 : null])); // the last comes first
  assert.ok(hosts.html().startsWith('<div><p></p><p>'));
  assert.equal(hosts.root.children[0].id, 2 * count);
});
