// What is pasted, and what is copied as plain text: tried in the core itself.
import assert from 'node:assert/strict';
import test from 'node:test';
import { Hosts } from '../hosts.js';
import { stepsFor } from '../page/clipboard.js';
import { sliceOfCells } from '../page/copied-cells.js';
import { documentOf, documentOfText, sliceOf, textOf } from '../page/slices.js';
import { withChecks } from '../page/todo-marks.js';
import { newCore } from './helper.mjs';

const core = await newCore();
const text = words => ({ type: 'text', text: words });
const paragraph = words => ({ type: 'paragraph', children: words ? [text(words)] : [] });
const heading = words => ({ type: 'heading', tag: 'h2', children: [text(words)] });
const item = (...children) => ({ type: 'listitem', children });
const list = (...items) => ({ type: 'list', listType: 'bullet', children: items });
const table = rows => ({
  type: 'table',
  children: rows.map(words => ({
    type: 'tablerow',
    children: words.map(word => ({ type: 'tablecell', children: [paragraph(word)] })),
  })),
});

/** An editor with a document, and the selection that is marked in it: the bars in its texts go. */
function begun(nodes) {
  const editor = core.open(), hosts = new Hosts(), points = [];
  const take = line => {
    const reply = editor.line(line);
    assert.ok(!reply.refused, JSON.stringify([line, reply]));
    if (reply.ops) hosts.apply(reply.ops);
    return reply;
  };
  take({ load: documentOf(nodes) });
  for (const host of [...hosts]) {
    for (let at; (at = host.text?.indexOf('|') ?? -1) >= 0;) {
      take({ update: [{ set: host.key, fields: { text: host.text.replace('|', '') } }] });
      points.push(host.text === '' ? [host.key, 0, 'element'] : [host.key, at, 'text']);
    }
  }
  if (points.length === 0) points.push([[...hosts].find(({ tag }) => tag === 'p').key, 0, 'element']);
  const selection = { anchor: points[0], focus: points.at(-1) };
  take({ update: [{ select: selection }] });
  return { editor, hosts, selection, take };
}

/** The plain text after something is pasted, with types in front of other blocks than paragraphs, and the caret in it. */
function pasted(nodes, content) {
  const { editor, hosts, selection, take } = begun(nodes);
  if (String(selection.anchor) !== String(selection.focus)) take({ dispatch: 'remove-text' });
  const { kind, ...at } = editor.line({ show: 'selection' }).selection;
  take({ update: stepsFor(hosts, content, at) });
  take({ update: [{ do: 'insert-text', payload: '|' }] });
  const { state } = editor.line({ show: 'state' });
  editor.close();
  return shown(state.root.children);
}

const shown = nodes => nodes.map(node => `${node.type === 'heading' ? '## ' : ''}${textOf([node])}`).join(' / ');

test('plain text: each line is a paragraph, and in a list an item', () => {
  assert.equal(pasted([paragraph('on|e')], { text: 'x' }), 'onx|e');
  assert.equal(pasted([paragraph('on|e')], { text: 'x\r\n\r\ny\tz\n' }), 'onx / y\tz|e');
  assert.equal(pasted([paragraph('o|n|e')], { text: '\ny' }), 'o / y|e');
  assert.equal(pasted([list(item(text('on|e')))], { text: 'x\ny' }), '- onx\n- y|e');
});

test('what is selected as a whole leaves nothing behind', () => {
  const slice = sliceOf([heading('x'), paragraph('y')]);
  assert.equal(pasted([paragraph('|one|'), paragraph('two')], { slice }), '## x / y| / two');
});

test('one paragraph goes into the text, as do texts', () => {
  for (const nodes of [[text('x')], [paragraph('x')], [heading('x')]]) {
    assert.equal(pasted([paragraph('o|n|e')], { slice: sliceOf(nodes) }), 'ox|e');
  }
  assert.equal(pasted([paragraph('')], { slice: sliceOf([heading('x')]) }), '## x|');
});

test('a link that is pasted into a link is its text', () => {
  const link = words => ({ type: 'link', url: 'https://example.org', children: [text(words)] });
  assert.equal(pasted([{ ...paragraph(''), children: [link('on|e')] }], { slice: sliceOf([link('x')]) }), 'onx|e');
  assert.equal(pasted([paragraph('on|e')], { slice: sliceOf([paragraph('x'), paragraph('y')]) }), 'onx / y|e');
});

test('of several blocks the first goes on with what is before, and the last with what is behind', () => {
  const slice = sliceOf([paragraph('x'), heading('y'), paragraph('z')]);
  assert.equal(pasted([paragraph('on|e'), paragraph('two')], { slice }), 'onx / ## y / z|e / two');
  assert.equal(pasted([paragraph('one|'), paragraph('two')], { slice }), 'onex / ## y / z| / two');
  assert.equal(pasted([paragraph('|one')], { slice }), 'x / ## y / z| / one');
  assert.equal(pasted([paragraph('|one')], { slice: { ...slice, isEndOpen: true } }), 'x / ## y / z|one');
  const parts = { ...sliceOf([heading('x'), heading('y')]), isStartOpen: true, isEndOpen: true };
  assert.equal(pasted([paragraph('on|e')], { slice: parts }), 'onx / ## y|e');
  assert.equal(pasted([paragraph('')], { slice }), 'x / ## y / z|');
  assert.equal(pasted([paragraph('o|n'), paragraph('t|wo')], { slice }), 'ox / ## y / z|wo');
});

test('in a list each line is an item, as deep as it was', () => {
  const slice = sliceOf([list(item(text('x')), item(list(item(text('y')))), item(text('z')))]);
  assert.equal(pasted([list(item(text('on|e')))], { slice }), '- onx\n  - y\n- z|e');
  assert.equal(pasted([paragraph('one|')], { slice }), 'one / - x\n  - y\n- z|');
});

test('cells are copied as a table, and fill the cells of another', () => {
  const { editor, hosts } = begun([table([['a', 'b', 'c'], ['d', 'e', 'f|']]), paragraph('')]);
  const cells = [...hosts].filter(({ tag }) => tag === 'td').map(({ key }) => key);
  const selection = { anchor: cells[5], focus: cells[1], table: [...hosts].find(({ tag }) => tag === 'table').key };
  const slice = sliceOfCells(hosts, editor.line({ show: 'state' }).state, selection);
  assert.equal(textOf(slice.nodes), 'b\tc\ne\tf');
  editor.close();
  assert.equal(pasted([table([['1|', '2'], ['3', '4']]), paragraph('')], { slice }), 'b\tc\ne\tf| / ');
  assert.match(pasted([table([['1|']]), paragraph('')], { slice }), /^1.*b.c.*e.f/);
});

test('plain text of what is copied', () => {
  const check = { ...list({ ...item(text('x')), checked: true }, item(text('y'))), listType: 'check' };
  const nodes = [heading('h'), check, table([['a', 'b']]), { type: 'horizontalrule' }];
  assert.equal(textOf(nodes), 'h\n\n[x] x\n[ ] y\n\na\tb\n\n---');
});

test('a file of plain text keeps its blank lines', () => {
  assert.equal(textOf(documentOfText('a\n\nb\n').root.children), 'a\n\n\n\nb');
});

test('to-dos that are marked in a list become items with checks, and others stay', () => {
  const nodes = withChecks([
    paragraph('[ ] no item'),
    list(item(text('a')), item(text('[x] done')), item(list(item(text('[ ] inner')))), item(text('[ ]')), item(text('b'))),
  ]);
  const shown = node => node.type === 'text' ? node.text : [node.listType ?? node.checked ?? node.type, ...node.children.map(shown)];
  assert.deepEqual(nodes.map(shown), [
    ['paragraph', '[ ] no item'],
    ['bullet', ['listitem', 'a']],
    ['check', [true, 'done'], ['listitem', ['check', [false, 'inner']]], [false]],
    ['bullet', ['listitem', 'b']],
  ]);
  assert.deepEqual(nodes[2].children.map(({ value }) => value), [1, 2, 2]);
});
