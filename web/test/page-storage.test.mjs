// The log of a document in a browser's storage: in pieces, held by one tab, begun anew.
import assert from 'node:assert/strict';
import test from 'node:test';
import { Hosts } from '../hosts.js';
import { linesAnew } from '../page/anew.js';
import { Log, documentsIn } from '../page/log.js';
import { letters, newCore } from './helper.mjs';

/** A browser's storage, with room for so many characters. */
class Store extends Map {
  room = Infinity;

  getItem(key) {
    return this.get(key) ?? null;
  }

  setItem(key, value) {
    const others = [...this].filter(([other]) => other !== key).flat().join('').length;
    if (others + key.length + value.length > this.room) throw new Error('there is no room');
    this.set(key, value);
  }

  removeItem(key) {
    this.delete(key);
  }

  key(index) {
    return [...this.keys()][index] ?? null;
  }

  get length() {
    return this.size;
  }
}

const typed = payload => ({ dispatch: 'insert-text', payload });
const long = Array.from({ length: 40 }, (_, index) => typed(letters(1000) + index));
const pieces = store => [...store.keys()].filter(key => key.split('/').length === 4);

test('a log is read back as it was written, and only its last piece is written anew', () => {
  const store = new Store(), log = new Log(store, 'a', 'one', () => 7);
  for (const line of long) log.append([line], 'Title');
  assert.deepEqual(new Log(store, 'a', 'two').lines, long);
  assert.deepEqual(documentsIn(store), [{ id: 'a', at: 7, title: 'Title', generation: 0, isAnew: false }]);
  assert.equal(pieces(store).length, 3);
  const before = new Map(store);
  log.append([typed('x'), typed('y')], 'Title');
  assert.equal(pieces(store).filter(key => before.get(key) !== store.get(key)).length, 1);
  assert.deepEqual(new Log(store, 'a', 'two').lines, [...long, typed('x'), typed('y')]);
});

test('a log that begins anew leaves nothing of the old one', () => {
  const store = new Store(), log = new Log(store, 'a', 'one');
  log.append(long, '');
  log.begin([typed('x')], '', true);
  assert.ok(new Log(store, 'a', 'two').isAnew);
  log.append([typed('y')], '');
  const read = new Log(store, 'a', 'two');
  assert.deepEqual([read.lines, read.isAnew, pieces(store).length], [[typed('x'), typed('y')], false, 1]);
});

test('of a log that is removed nothing is left', () => {
  const store = new Store(), log = new Log(store, 'a', 'one');
  log.hold();
  log.append(long, '');
  log.remove();
  assert.equal(store.size, 0);
});

test('where there is no room, what was kept stays', () => {
  const store = new Store(), log = new Log(store, 'a', 'one');
  log.append(long, '');
  store.room = 60_000;
  assert.throws(() => log.append(long, ''));
  assert.deepEqual(new Log(store, 'a', 'one').lines, long);
  assert.throws(() => log.begin([...long, ...long], ''));
  assert.deepEqual(new Log(store, 'a', 'one').lines, long);
  log.begin(long.slice(1), ''); // though there is no room for both
  assert.deepEqual(new Log(store, 'a', 'one').lines, long.slice(1));
});

test('two tabs write two logs', () => {
  let time = 0;
  const now = () => time, store = new Store();
  const first = new Log(store, 'a', 'one', now);
  first.hold();
  first.append([typed('x')], '');
  const second = new Log(store, 'a', 'two', now);
  assert.deepEqual([first.isOurs, second.isOurs, second.isHeldElsewhere], [true, false, true]);
  const copy = second.copy('b', 'Copy');
  copy.append([typed('y')], 'Copy');
  first.append([typed('z')], '');
  assert.deepEqual(new Log(store, 'a', 'three').lines, [typed('x'), typed('z')]);
  assert.deepEqual(new Log(store, 'b', 'three').lines, [typed('x'), typed('y')]);
  time = 100_000; // the first tab was asleep, and another one has taken its document
  const third = new Log(store, 'a', 'three', now);
  assert.ok(third.isOurs);
  third.hold();
  third.append([typed('w')], '');
  third.release();
  assert.ok(!first.isOurs);
});

/** An editor after lines, and what a page shows of it. */
async function after(lines) {
  const editor = (await newCore()).open(), hosts = new Hosts();
  for (const line of lines) {
    const reply = editor.line(line);
    assert.ok(!reply.refused, JSON.stringify([line, reply]));
    if (reply.ops) hosts.apply(reply.ops);
  }
  const { selection } = editor.line({ show: 'selection' });
  return { editor, view: { hosts }, selection };
}

test('a document that begins anew has its rules, its selection, and nothing to undo', async () => {
  const rule = { rule: { on: 'table', if: [{ next: null }], do: [{ after: { type: 'paragraph' } }] } };
  const start = ['first', 0, 'element'];
  const lines = [
    rule,
    { update: [{ new: 'paragraph', as: 'first' }, { put: 'first', into: 0 }, { select: { anchor: start, focus: start } }] },
    typed('gone'),
    { dispatch: 'insert-table', payload: [2, 2, false] },
    typed('in a cell'),
    { dispatch: 'delete-character', payload: 'back' },
  ];
  const live = await after(lines);
  const anew = await after(linesAnew(live, lines, 5));
  for (const show of ['state', 'view']) assert.deepEqual(anew.editor.line({ show }), live.editor.line({ show }));
  assert.equal(anew.editor.line({ show: 'history' }).history.undo, 0);
  for (const { editor } of [live, anew]) editor.line(typed('!'));
  assert.deepEqual(anew.editor.line({ show: 'view' }), live.editor.line({ show: 'view' }));
  assert.equal(anew.editor.line({ show: 'history' }).history.undo, 1);
  assert.equal(anew.editor.line({ dispatch: 'insert-table', payload: [1, 1, false] }).refused, undefined);
});
