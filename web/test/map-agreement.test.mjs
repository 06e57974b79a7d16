// A point that is told is where the core has it. Through random edits the core tells where its own points went, or a mark
// in the text does.
import assert from 'node:assert/strict';
import test from 'node:test';
import { Hosts } from '../hosts.js';
import { mapPoint } from '../selection.js';
import { newCore } from './helper.mjs';

const core = await newCore();
const pieces = ['a', 'b', 'ab', 'ba', '\u{1f600}', 'x y', 'e\u0301'];

/** Numbers from 0 below a bound, the same each time. */
function generator(seed) {
  let state = seed;
  return bound => {
    state = (Math.imul(state, 1664525) + 1013904223) >>> 0;
    return Math.floor(state / 2 ** 32 * bound);
  };
}

/** An editor, and hosts that follow it. */
function opened(line) {
  const editor = core.open(), hosts = new Hosts();
  hosts.apply(editor.line(line).ops);
  return { editor, hosts };
}

// ---- edits elsewhere, through which the core carries its selection

/** What such edits are of: two blocks that may be one, and a text. */
function chosen(hosts, draw) {
  const all = [...hosts], one = list => list[draw(list.length)];
  const blocks = all.filter(({ tag }) => tag === 'p' || tag === 'blockquote');
  return { block: one(blocks), other: one(blocks), text: one(all.filter(({ text }) => text)) };
}

const fresh = (type, fields, into, at) => [{ new: type, fields, as: 'new' }, { put: 'new', into, at }];

/** Those of blocks. A node that is put where it was is left out, since no operation shows that. */
function blockEdits(hosts, { block, other }, draw) {
  const { children } = hosts.root, at = draw(children.length), inside = draw(block.children.length + 1);
  const edits = [
    fresh('quote', {}, 0, draw(children.length + 1)),
    fresh('text', { text: pieces[draw(pieces.length)], format: draw(2) }, block.key, inside),
    fresh('linebreak', {}, block.key, inside),
    [{ remove: block.key }],
  ];
  if (children[at] !== block) edits.push([{ put: block.key, into: 0, at }]);
  if (other !== block && other.children.length > 0) edits.push([{ children: other.key, into: block.key }]);
  return edits;
}

/** Those of texts: what comes into one, goes out of it, or goes elsewhere. */
function textEdits({ text: { key, text, parent }, other }, draw) {
  const at = 1 + draw(text.length - 1), end = at + 1 + draw(text.length - at - 1);
  const cut = { split: key, at: [at, end], as: 'piece' };
  const after = parent.children.findIndex(child => child.key === key) + 1;
  const insert = [{ split: key, at: [at] }, ...fresh('text', { text: pieces[draw(pieces.length)] }, parent.key, after)];
  return [
    insert, insert, insert,
    [cut, { remove: 'piece' }], [cut, { remove: 'piece' }],
    [cut, { put: 'piece', into: other.key }],
    [{ split: key, at: [at], as: 'rest' }, { set: 'rest', fields: { format: 1 } }],
    [{ set: key, fields: { format: draw(2) } }],
    [{ remove: key }],
  ];
}

/** All points of some nodes. */
function pointsOf(hosts) {
  return hosts.flatMap(({ key, text, children }) => {
    const [length, kind] = text === null ? [children.length, 'element'] : [text.length, 'text'];
    return Array.from({ length: length + 1 }, (_, offset) => [key, offset, kind]);
  });
}

/** One edit: what was told of two points that the core carried along. */
function edited({ editor, hosts }, draw) {
  const nodes = chosen(hosts, draw);
  if (!nodes.block) return ['none'];
  const edits = [...blockEdits(hosts, nodes, draw), ...(nodes.text ? textEdits(nodes, draw) : [])];
  const steps = edits[draw(edits.length)];
  const near = [hosts.root, nodes.block, ...(nodes.text ? [nodes.text, nodes.text.parent] : [])];
  const points = pointsOf(draw(4) === 0 ? [...hosts] : near);
  const [anchor, focus] = [1, 2].map(() => points[draw(points.length)]);
  if (editor.line({ update: [{ select: { anchor, focus } }] }).refused) return ['none'];
  const { ops } = editor.line({ update: draw(5) === 0 ? [...steps, { append: 'more' }] : steps });
  if (!ops) return ['none'];
  const { selection } = editor.line({ show: 'selection' });
  const told = [[anchor, selection.anchor], [focus, selection.focus]].map(([point, now]) => {
    const mapped = mapPoint(hosts, ops, point);
    if (mapped === null) return 'open';
    if (String(mapped) !== String(now)) assert.fail(JSON.stringify({ html: hosts.html(), point, mapped, now, steps, ops }));
    return String(mapped) === String(point) ? 'kept' : 'moved';
  });
  hosts.apply(ops);
  return told;
}

test('a point that is told is where the core carried it', () => {
  const draw = generator(1), counts = { none: 0, open: 0, kept: 0, moved: 0 };
  for (let session = 0; session < 30; session += 1) {
    const followed = opened({ update: [{ append: 'hello world' }, { append: 'other' }] });
    for (let turn = 0; turn < 60; turn += 1) for (const word of edited(followed, draw)) counts[word] += 1;
    followed.editor.close();
  }
  assert.ok(counts.kept > 1000 && counts.moved > 150, JSON.stringify(counts));
});

// ---- edits at a caret, in a text with a mark at the point

const MARK = '\ufffc';

/** The characters of a view in order: a line break for each block and break, and a mark for each embed. */
function charactersOf(hosts, stop) {
  let characters = '', found = -1;
  const walk = ({ key, tag, text, children }) => {
    if (tag === 'p' || tag === 'br') characters += '\n';
    else if (tag === 'span' && text === null) characters += MARK;
    if (stop && key === stop[0]) found = characters.length + stop[1];
    characters += text ?? '';
    children.forEach(walk);
  };
  walk(hosts.root);
  return { characters, found };
}

const document = (...children) => ({ load: { root: { children: [{ type: 'paragraph', children }] } } });
const commands = [
  ...pieces.map(payload => ({ do: 'insert-text', payload })), { do: 'insert-paragraph' }, { do: 'insert-line-break' },
  ...['delete-character', 'delete-word'].flatMap(name => ['back', 'forward'].map(payload => ({ do: name, payload }))),
];

/** Does a command at a caret in a text, and in the same text with a mark at the point. */
function compared(words, point, caret, command) {
  const plain = opened(document({ type: 'text', text: words }));
  const marked = opened(document({ type: 'text', text: words.slice(0, point) }, { type: 'embed', src: '' },
    { type: 'text', text: words.slice(point) }));
  const run = ({ editor, hosts }, [key, offset]) => {
    const place = [key, offset, 'text'];
    const { ops = [] } = editor.line({ update: [{ select: { anchor: place, focus: place } }, command] });
    const told = mapPoint(hosts, ops, [2, point, 'text']);
    hosts.apply(ops);
    editor.close();
    return told;
  };
  const told = run(plain, [2, caret]);
  run(marked, caret < point ? [2, caret] : [4, caret - point]);
  const { characters, found } = charactersOf(plain.hosts, told), { characters: withMark } = charactersOf(marked.hosts);
  if (withMark.replace(MARK, '') !== characters) return 'none'; // the mark was in the way
  if (told === null) return 'open';
  if (found !== withMark.indexOf(MARK)) assert.fail(JSON.stringify({ words, point, caret, command, told }));
  return 'told';
}

test('a point that is told is where a mark in the text is after an edit at a caret', () => {
  const draw = generator(2), counts = { none: 0, open: 0, told: 0 };
  for (let turn = 0; turn < 600; turn += 1) {
    const letters = Array.from({ length: 2 + draw(12) }, () => ['a', 'a', 'b', 'c', ' ', '\u{1f600}'][draw(6)]);
    const offsetOf = count => letters.slice(0, count).join('').length;
    const point = offsetOf(1 + draw(letters.length - 1)), caret = offsetOf(draw(letters.length + 1));
    if (caret === point) continue;
    counts[compared(letters.join(''), point, caret, commands[draw(commands.length)])] += 1;
  }
  assert.ok(counts.told > 250, JSON.stringify(counts));
});
