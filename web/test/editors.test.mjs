// What an editor and a core promise in JavaScript: errors, limits, text that isn't well formed, and a module that stops.
import assert from 'node:assert/strict';
import test from 'node:test';
import { Core, Lexical, LexicalError } from '../lexical.js';
import { codeOf, letters, moduleBytes, newCore, stateOf } from './helper.mjs';

const LIMIT = 16_777_216; // bytes of a line
const append = text => ({ update: [{ append: text }] });

test('two editors in one core do not see each other', async () => {
  const core = await newCore();
  const [one, other] = [core.open(), core.open({ view: true })];
  const before = stateOf(other);
  assert.equal(one.line(append('one')).commit, 1);
  assert.equal(stateOf(other), before);
  assert.match(other.line(append('other')).view, /other/);
  assert.equal(one.line({ show: 'view' }).view, '<div><p><span data-lexical-text="true">one</span></p></div>');
  one.close();
  assert.equal(other.line(append('more')).commit, 2);
  assert.equal(other.core, core);
});

test('a closed editor', async () => {
  const core = await newCore();
  const editor = core.open(), other = core.open();
  editor.close();
  editor.close();
  const acts = [() => editor.line({ show: 'view' }), () => editor.text('{}'), () => editor.bytes(Buffer.from('{}'))];
  for (const act of acts) assert.equal(codeOf(act), 'closed');
  assert.equal(other.line(append('a')).commit, 1); // and a new one, which may have the place of the closed one
  assert.equal(core.open().line(append('a')).commit, 1);
});

test('what is no line', async () => {
  const editor = (await newCore()).open();
  const circle = {};
  circle.update = circle;
  for (const [act, said] of [
    [() => editor.text('{"show":"view"}\n'), /line end/],
    [() => editor.bytes(Buffer.from('{"show":\n"view"}')), /line end/],
    [() => editor.text(Buffer.from('{}')), /a string .* not Uint8Array/],
    [() => editor.text(undefined), /a string .* not undefined/],
    [() => editor.bytes('{}'), /a Uint8Array .* not string/],
    [() => editor.bytes(new Uint16Array(4)), /a Uint8Array .* not Uint16Array/],
    [() => editor.line('{"show":"view"}'), /an object .* not string/],
    [() => editor.line(null), /an object .* not null/],
    [() => editor.line(circle), /circular/],
    [() => editor.line({ at: 1n, update: [] }), /BigInt/],
    [() => editor.line({ toJSON() {} }), /JSON/],
  ]) {
    assert.throws(act, error => error instanceof LexicalError && error.code === 'line' && said.test(error.message));
  }
  assert.equal(editor.line(append('a\nb')).commit, 1); // within JSON a line end is escaped
});

test('a line of as many bytes as there may be, and one more', async () => {
  const editor = (await newCore()).open();
  const line = JSON.stringify(append('a'));
  assert.match(editor.text(line.padEnd(LIMIT)), /^\{"commit":1,/);
  assert.match(Buffer.from(editor.bytes(Buffer.alloc(LIMIT, ' '))).toString(), /BadLine/);
  const before = stateOf(editor);
  for (const act of [
    () => editor.text(line.padEnd(LIMIT + 1)),
    () => editor.text('é'.repeat(LIMIT / 2 + 1)), // fewer characters than bytes
    () => editor.line(append('é'.repeat(LIMIT / 2))),
    () => editor.bytes(new Uint8Array(LIMIT + 1)),
  ]) {
    assert.equal(codeOf(act), 'long');
  }
  assert.equal(stateOf(editor), before);
});

test('options that are none', async () => {
  const core = await newCore();
  for (const delay of [-1, 0.5, NaN, Infinity, 2 ** 53, '5']) assert.throws(() => core.open({ delay }), RangeError);
  for (const view of [1, 'yes', null]) assert.throws(() => core.open({ view }), TypeError);
  for (const delay of [0, 86_400_000, 2 ** 53 - 1]) assert.equal(core.open({ delay }).line(append('a')).commit, 1);
});

test('the delay of the history', async () => {
  const core = await newCore();
  for (const [delay, entries] of [[1000, 2], [0, 3], [2 ** 40, 2]]) {
    const editor = core.open({ delay });
    editor.line({ at: 0, update: [{ append: 'a' }, { select: { anchor: [2, 1, 'text'], focus: [2, 1, 'text'] } }] });
    for (const at of [5000, 5999]) editor.line({ at, dispatch: 'insert-text', payload: 'b' });
    assert.equal(editor.line({ show: 'history' }).history.undo, entries - 1, `delay ${delay}`);
  }
});

test('halves of surrogate pairs, and bytes that are not UTF-8', async () => {
  const editor = (await newCore()).open();
  assert.match(editor.text('{"update":[{"append":"\ud800!"}]}'), /"\ufffd!"/);
  assert.equal(editor.line(append('\ud800!')).refused.cause, 'BadLine'); // JSON.stringify escapes it
  const bytes = Buffer.from('{"update":[{"append":"\u0080"}]}', 'latin1');
  assert.equal(JSON.parse(Buffer.from(editor.bytes(bytes)).toString()).refused.cause, 'BadLine');
  assert.match(editor.text('\ufeff{"show":"view"}'), /BadLine/); // a byte order mark is no white space
});

test('long replies, which are read in pieces, and short ones behind them', async () => {
  const editor = (await newCore()).open({ view: true });
  for (const text of [letters(16_000), letters(20_000), '😀é'.repeat(30_000), 'x😀'.repeat(200_000), 'a']) {
    const { ops, view } = editor.line(append(text));
    assert.equal(ops.find(([name, , , tag]) => name === 'create' && tag === 'span')[5], text);
    assert.ok(view.includes(text));
    const bytes = editor.bytes(Buffer.from('{"show":"view"}'));
    assert.equal(Buffer.from(bytes).toString(), JSON.stringify({ view }));
    editor.line({ update: [{ remove: ops[0][2] }] });
  }
});

test('a module that stops, by an instance whose call throws as a trap does', async () => {
  const { instance } = await WebAssembly.instantiate(moduleBytes, {});
  let stops = false;
  const exports = {
    ...instance.exports,
    lx_live_line(...given) {
      if (stops) throw new WebAssembly.RuntimeError('unreachable');
      return instance.exports.lx_live_line(...given);
    },
  };
  const core = new Core({ exports });
  const editor = core.open(), other = core.open();
  assert.equal(editor.line(append('a')).commit, 1);
  stops = true;
  const isTrap = ({ code, cause }) => code === 'broken' && cause instanceof WebAssembly.RuntimeError;
  assert.throws(() => editor.line(append('b')), isTrap);
  stops = false; // the module would go on, but nothing asks it to
  const bytes = Buffer.from('{}');
  const acts = [() => editor.line(append('c')), () => other.text('{}'), () => other.bytes(bytes), () => core.open()];
  for (const act of acts) assert.equal(codeOf(act), 'broken');
  editor.close(); // which is lost already
});

test('what the numbers of the module mean, by an instance that answers them', async () => {
  const { instance } = await WebAssembly.instantiate(moduleBytes, {});
  let told = 0;
  const lx_live_line = (...given) => told || instance.exports.lx_live_line(...given);
  const lx_live_open = (...given) => told || instance.exports.lx_live_open(...given);
  const core = new Core({ exports: { ...instance.exports, lx_live_line, lx_live_open } });
  const editor = core.open();
  for (const [number, code] of [[1, 'closed'], [5, 'memory'], [6, 'long'], [7, 'spent'], [9, 'broken']]) {
    told = number;
    assert.equal(codeOf(() => editor.line(append('a'))), code);
    assert.equal(codeOf(() => core.open()), code);
  }
  told = 0;
  assert.equal(editor.line(append('a')).commit, 1);
});

test('a module that really stops, by a call with a wild address behind the back of the core', async () => {
  const { instance } = await WebAssembly.instantiate(moduleBytes, {});
  const core = new Core(instance);
  const editor = core.open(), other = core.open();
  assert.throws(() => instance.exports.lx_live_line(0xfffffff0, 0, 0, 0, 0, 0xfffffff0), WebAssembly.RuntimeError);
  for (const act of [() => editor.line(append('a')), () => other.text('{}'), () => core.open()]) {
    assert.equal(codeOf(act), 'broken');
  }
});

test('an editor in a module of its own', async () => {
  const editor = await Lexical.open(moduleBytes, { view: true });
  assert.match(editor.line(append('Hello')).view, /Hello/);
  assert.ok(editor.core.size > 0);
  editor.close();
});
