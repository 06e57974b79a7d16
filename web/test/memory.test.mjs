// What happens where memory is wanting, and what long work takes.
import assert from 'node:assert/strict';
import test from 'node:test';
import { Core } from '../lexical.js';
import { bounded } from './bounded.mjs';
import { codeOf, letters, moduleBytes, newCore, stateOf } from './helper.mjs';

const PAGE = 65536;
const append = text => ({ update: [{ append: text }] });
const paragraph = { type: 'paragraph', children: [{ type: 'text', text: 'word' }] };
const documentOf = paragraphs => ({ load: { root: { children: Array(paragraphs).fill(paragraph) } } });

/** Grows a document until memory is wanting 30 times. What is answered is what an editor with ample memory answers. */
async function fill(pages, grow) {
  const core = await newCore(bounded(pages));
  const editor = core.open(), other = core.open(), twin = (await newCore()).open();
  other.line(append('another'));
  const others = stateOf(other);
  let wanting = 0, answered = 0;
  const send = line => {
    const text = JSON.stringify(line);
    let reply = null;
    const code = codeOf(() => { reply = editor.text(text); });
    if (code === null) {
      assert.equal(reply, twin.text(text));
      answered += 1;
    } else {
      assert.equal(code, 'memory');
      wanting += 1;
    }
  };
  for (let i = 0; wanting < 30; i += 1) [grow(i), { show: 'history' }, { show: 'selection' }].forEach(send);
  [{ dispatch: 'undo' }, { clear: 'history' }, append('b'), { show: 'view' }, { show: 'state' }].forEach(send);
  assert.ok(core.size <= pages * PAGE);
  assert.ok(answered > 30, `${answered} lines were answered`);
  editor.close();
  assert.equal(stateOf(other), others);
  assert.equal(core.open().line(append('b')).commit, 1);
}

test('memory that is wanting for texts', () => fill(64, () => ({ ...append(letters(2000)), tags: ['history-push'] })));
test('memory that is wanting for loads', () => fill(64, i => documentOf(100 + 100 * i % 6000)));
test('memory that is wanting for long lines', () => fill(96, i => append(letters(1000 * i))));
test('memory that is wanting for steps', () => fill(128, () => ({ update: Array(50).fill({ append: letters(100) }) })));

test('a line for which memory is wanting leaves all as it was', async () => {
  const core = await newCore(bounded(64));
  const editor = core.open(), other = core.open();
  const start = { update: [{ append: 'a' }, { select: { anchor: [2, 1, 'text'], focus: [2, 1, 'text'] } }] };
  for (const one of [editor, other]) one.line(start);
  const [before, others] = [stateOf(editor), stateOf(other)];
  for (let i = 0; i < 20; i += 1) {
    assert.equal(codeOf(() => editor.line(append(letters(1_000_000)))), 'memory');
    assert.equal(codeOf(() => editor.line(documentOf(8000))), 'memory');
    assert.equal(stateOf(editor), before);
    assert.equal(stateOf(other), others);
  }
  assert.equal(editor.line({ dispatch: 'insert-text', payload: 'b' }).commit, 2);
  assert.equal(editor.line({ defer: true, update: [{ append: 'c' }] }).gathered, 1);
  assert.equal(codeOf(() => editor.line(append(letters(1_000_000)))), 'memory');
  assert.ok([true, undefined].includes(editor.line({ flush: true }).idle)); // what waited may be dropped
});

test('memory that is wanting for editors', async () => {
  const core = await newCore(bounded(48));
  const editors = [];
  const oneMore = () => {
    editors.push(core.open());
    editors.at(-1).line({ show: 'view' });
  };
  while (codeOf(oneMore) === null);
  assert.ok(editors.length > 10);
  assert.equal(codeOf(oneMore), 'memory');
  editors.pop().close();
  assert.equal(core.open().line({ show: 'view' }).view, '<div></div>');
});

/** A core whose buffers can't grow while no room is there, though its editors can: it has an `lx_take` of its own. */
async function withoutRoom() {
  const { instance } = await WebAssembly.instantiate(moduleBytes, {});
  const room = { isThere: true };
  const exports = { ...instance.exports, lx_take: size => room.isThere ? instance.exports.lx_take(size) : 0 };
  return { core: new Core({ exports }), room };
}

test('without memory for buffers long replies are had in pieces, and long lines change nothing', async () => {
  const { core, room } = await withoutRoom();
  const editor = core.open(), twin = (await newCore()).open();
  for (const line of [append('x😀é'.repeat(100_000)), documentOf(2000)]) {
    assert.equal(editor.text(JSON.stringify(line)), twin.text(JSON.stringify(line)));
    room.isThere = false;
    for (const show of ['view', 'state', 'selection']) {
      const bytes = Buffer.from(JSON.stringify({ show }));
      assert.equal(editor.text(bytes.toString()), twin.text(bytes.toString()));
      assert.ok(Buffer.from(editor.bytes(bytes)).equals(twin.bytes(bytes)));
    }
    assert.equal(editor.text('{"dispatch":"undo"}'), twin.text('{"dispatch":"undo"}'));
    const before = stateOf(editor);
    assert.equal(codeOf(() => editor.line(append(letters(2_000_000)))), 'memory');
    assert.equal(stateOf(editor), before);
    room.isThere = true;
  }
});

test('long replies in a memory that is full', async () => {
  const text = letters(300_000);
  let had = 0, wanting = 0;
  for (let fill = 0; fill < 200; fill += 2) {
    const core = await newCore(bounded(80));
    const editor = core.open(), other = core.open();
    const { ops } = editor.line(append(text));
    editor.line({ update: [{ remove: ops[0][2] }], tags: ['history-push'] }); // an undo will tell the text again
    if (codeOf(() => other.line(append(letters(1000 * fill)))) === 'memory') continue;
    let reply = null;
    if (codeOf(() => { reply = editor.line({ dispatch: 'undo' }); }) === null) {
      assert.ok(JSON.stringify(reply).includes(text));
      assert.equal(editor.line({ show: 'history' }).history.redo, 1);
      had += 1;
    } else {
      assert.equal(editor.line({ show: 'history' }).history.redo, 0);
      wanting += 1;
    }
  }
  assert.ok(had > 0 && wanting > 0, `${had} were had, and for ${wanting} memory was wanting`);
});

test('typing and deleting takes no more and more memory', async () => {
  const core = await newCore();
  const editor = core.open();
  editor.line({ update: [{ append: '' }, { select: { anchor: [1, 0, 'element'], focus: [1, 0, 'element'] } }] });
  let early = 0;
  for (let i = 1; i <= 10_000; i += 1) {
    const typed = { dispatch: 'insert-text', payload: 'abcdefghij '[i % 11] };
    const deleted = { dispatch: 'delete-character', payload: 'back' };
    assert.ok(editor.line({ ...(i % 2 === 1 ? typed : deleted), at: i * 100 }).commit);
    if (i === 5000) early = core.size; // the history has long been full
  }
  assert.equal(core.size, early);
});

test('editors that come and go take no more and more memory', async () => {
  const core = await newCore();
  const sizes = [];
  for (let i = 0; i < 500; i += 1) {
    const editor = core.open({ view: i % 2 === 0 });
    for (let j = 0; j < 5; j += 1) editor.line(append(letters(10 + j * 60)));
    editor.close();
    sizes.push(core.size);
  }
  assert.equal(sizes.at(-1), sizes[1]);
});

test('one huge line, and one long reply, hold no memory for ever', async () => {
  const core = await newCore();
  const editor = core.open();
  const huge = Buffer.alloc(16_000_000, ' '), long = append(letters(400_000));
  const sizes = [];
  for (let i = 0; i < 5; i += 1) {
    editor.bytes(huge);
    editor.text(huge.toString());
    editor.line(long);
    editor.line({ dispatch: 'undo' });
    editor.line({ show: 'state' });
    editor.line({ clear: 'history' });
    sizes.push(core.size);
  }
  assert.equal(sizes.at(-1), sizes[1], sizes.join(', '));
});
