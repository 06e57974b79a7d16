// Places of a page and points of the core, there and back, and what a person meant.
import assert from 'node:assert/strict';
import test from 'node:test';
import { View } from '../dom.js';
import { placeOf, selectionIn, show } from '../selection.js';
import { newCore } from './helper.mjs';
import { newPage } from './plain-page.mjs';

const core = await newCore();

const text = (words, format = 0) => ({ type: 'text', text: words, format });
const element = (type, ...children) => ({ type, children });
const paragraph = (...parts) => element('paragraph', ...parts.map(part => part.type ? part : text(part)));
const item = (...children) => element('listitem', ...children);
const cell = (...children) => element('tablecell', ...children);

const embed = { type: 'embed', src: 'x' }, rule = { type: 'horizontalrule' };

/** An editor with a document, drawn into a page. */
function drawn(...children) {
  const editor = core.open(), page = newPage(), view = new View(page.createElement('main'));
  view.apply(editor.line({ load: { root: { children } } }).ops);
  return { editor, page, view };
}

/** The node of a page on a way of numbers from the view's element. */
const nodeAt = (view, ...way) => way.reduce((node, index) => node.childNodes[index], view.element);

/** What is selected from one place to another, each a way and an offset. */
function selected(view, [anchorWay, anchorOffset], [focusWay, focusOffset] = [anchorWay, anchorOffset]) {
  const anchorNode = nodeAt(view, ...anchorWay), focusNode = nodeAt(view, ...focusWay);
  return selectionIn(view, { anchorNode, anchorOffset, focusNode, focusOffset });
}

const range = (anchor, focus = anchor) => ({ anchor, focus });

/** Both directions, since what is meant doesn't hang on it. */
function assertMeant(view, from, to, anchor, focus) {
  assert.deepEqual(selected(view, from, to), { anchor, focus });
  assert.deepEqual(selected(view, to, from), { anchor: focus, focus: anchor });
}

test('a place in a text is an offset in UTF-16', () => {
  const { view } = drawn(paragraph('a😀b', text('bold', 129)));
  assert.deepEqual(selected(view, [[0, 0, 0], 3]), range([2, 3, 'text']));
  assert.deepEqual(selected(view, [[0, 0], 0]), range([2, 0, 'text']));
  assert.deepEqual(selected(view, [[0, 0], 1]), range([2, 4, 'text']));
  assert.deepEqual(selected(view, [[0, 1, 0, 0], 4]), range([3, 4, 'text']));
  for (const [way, offset] of [[[0, 1], 0], [[0, 1, 0], 0]]) {
    assert.deepEqual(selected(view, [way, offset]), range([3, 0, 'text']), 'in the outer element or the inner');
    assert.deepEqual(selected(view, [way, 1]), range([3, 4, 'text']));
  }
});

test('a place between children is their number, and one in a leaf is beside it', () => {
  const { view } = drawn(paragraph('a', { type: 'linebreak' }, embed), rule);
  for (const offset of [0, 1, 2, 3]) assert.deepEqual(selected(view, [[0], offset]), range([1, offset, 'element']));
  assert.deepEqual(selected(view, [[0], 4]), range([1, 3, 'element']), 'behind the ending');
  assert.deepEqual(selected(view, [[0, 1], 0]), range([1, 1, 'element']));
  assert.deepEqual(selected(view, [[0, 2], 0]), range([1, 2, 'element']));
  assert.deepEqual(selected(view, [[1], 0]), range([0, 1, 'element']));
  assert.deepEqual(selected(view, [[], 2]), range([0, 2, 'element']));
});

test('the ending of an empty block is in it', () => {
  const { view } = drawn(paragraph());
  for (const place of [[[0], 0], [[0], 1], [[0, 0], 0]]) {
    assert.deepEqual(selected(view, place), range([1, 0, 'element']));
  }
});

test("what isn't of the view is in front of its host's text or behind it, and outside is null", () => {
  const { view, page } = drawn(paragraph('ab'), paragraph(embed));
  const [host, shown] = [nodeAt(view, 0, 0), nodeAt(view, 1, 0)];
  const front = host.insertBefore(page.createTextNode('xy'), host.firstChild);
  const back = host.appendChild(page.createTextNode('z')), player = shown.appendChild(page.createElement('b'));
  const at = (anchorNode, anchorOffset) =>
    selectionIn(view, { anchorNode, anchorOffset, focusNode: anchorNode, focusOffset: anchorOffset });
  assert.deepEqual([at(front, 0), at(front, 2), at(back, 1)], [0, 0, 2].map(offset => range([2, offset, 'text'])));
  assert.deepEqual([at(player, 0), at(shown, 1)], [0, 1].map(offset => range([3, offset, 'element'])));
  assert.deepEqual(at(view.element.parentNode, 0), null);
  assert.deepEqual(at(null, 0), null);
  nodeAt(view, 1).insertBefore(page.createElement('i'), shown);
  assert.deepEqual([at(nodeAt(view, 1), 0), at(nodeAt(view, 1), 1), at(nodeAt(view, 1), 2)],
    [0, 0, 1].map(offset => range([3, offset, 'element'])));
  assert.deepEqual(placeOf(view, [3, 1, 'element']), [nodeAt(view, 1), 2]);
});

test('a triple click ends at the end of its block', () => {
  const { view } = drawn(paragraph('one', text('bold', 1)), paragraph('two'), paragraph(), paragraph('four'));
  for (const to of [[[1], 0], [[1, 0], 0], [[1, 0, 0], 0]]) {
    assertMeant(view, [[0, 0, 0], 0], to, [2, 0, 'text'], [3, 4, 'text']);
    assertMeant(view, [[0], 0], to, [1, 0, 'element'], [3, 4, 'text']);
  }
  assertMeant(view, [[0, 0, 0], 1], [[3, 0, 0], 0], [2, 1, 'text'], [6, 0, 'element']);
  assertMeant(view, [[1, 0, 0], 0], [[2], 0], [5, 0, 'text'], [5, 3, 'text']);
});

test('a selection of nothing but the end of a block stays', () => {
  const { view } = drawn(paragraph('one'), paragraph(), paragraph('two'));
  assertMeant(view, [[0, 0, 0], 3], [[1], 0], [2, 3, 'text'], [3, 0, 'element']);
  assertMeant(view, [[1], 0], [[2, 0, 0], 0], [3, 0, 'element'], [5, 0, 'text']);
  assertMeant(view, [[0, 0, 0], 1], [[2, 0, 0], 1], [2, 1, 'text'], [5, 1, 'text']);
});

test('a selection around blocks is of what is in them', () => {
  const list = element('list', item(text('a')), item(element('list', item(text('b')))));
  const { view } = drawn(paragraph('one'), list, rule, paragraph('two'));
  assertMeant(view, [[], 0], [[], 1], [2, 0, 'text'], [2, 3, 'text']);
  assertMeant(view, [[], 1], [[], 2], [5, 0, 'text'], [9, 1, 'text']);
  assertMeant(view, [[1], 0], [[1], 1], [5, 0, 'text'], [5, 1, 'text']);
  assertMeant(view, [[1, 1], 0], [[1, 1], 1], [9, 0, 'text'], [9, 1, 'text']);
  assertMeant(view, [[], 2], [[], 3], [0, 2, 'element'], [0, 3, 'element']);
  assertMeant(view, [[], 0], [[], 4], [2, 0, 'text'], [12, 3, 'text']);
  assertMeant(view, [[1, 1, 0], 1], [[], 4], [0, 2, 'element'], [12, 3, 'text']);
  assertMeant(view, [[1], 2], [[], 2], [3, 2, 'element'], [0, 2, 'element']);
});

test('a selection up to the start of a block behind a rule or a table ends behind that', () => {
  const table = element('table', element('tablerow', cell(paragraph('x'))));
  const { view } = drawn(paragraph('one'), rule, paragraph('two'), table, paragraph('end'));
  assertMeant(view, [[0, 0, 0], 0], [[2, 0, 0], 0], [2, 0, 'text'], [0, 2, 'element']);
  assertMeant(view, [[2, 0, 0], 0], [[4, 0, 0], 0], [5, 0, 'text'], [0, 4, 'element']);
  assertMeant(view, [[3, 0, 0, 0, 0, 0], 0], [[4, 0, 0], 0], [10, 0, 'text'], [10, 1, 'text']);
  assertMeant(view, [[], 3], [[], 4], [0, 3, 'element'], [0, 4, 'element']);
});

/** A table of two rows. */
const square = element('table', ...[['a', 'b'], ['c', 'd']].map(words =>
  element('tablerow', ...words.map(word => cell(paragraph(word))))));

test('from one cell to another cells are selected', () => {
  const { view } = drawn(square);
  const [table, first, second, , fourth] = keysOf(view, 'table', 'td');
  const cells = (anchor, focus) => ({ anchor, focus, table });
  const inA = [[0, 0, 0, 0, 0, 0], 1], inD = [[0, 1, 1, 0, 0, 0], 1], startOfB = [[0, 0, 1, 0, 0, 0], 0];
  assert.deepEqual(selected(view, inA, inD), cells(first, fourth));
  assert.deepEqual(selected(view, inD, inA), cells(fourth, first));
  assert.deepEqual(selected(view, [[0, 0], 0], [[0, 0], 1]), cells(first, first));
  assert.deepEqual(selected(view, [[0, 0], 2], [[0, 0], 1]), cells(second, second));
  assert.deepEqual(selected(view, [[0], 0], [[0], 2]), cells(first, fourth));
  assert.deepEqual(selected(view, inA, startOfB), cells(first, second), 'dragged');
  assert.ok(selected(view, [[0, 0, 0, 0, 0, 0], 0], startOfB).anchor[2] === 'text', 'a triple click');
});

test('below one cell the cells of the table in it are selected, and above it those of the table around', () => {
  const { view } = drawn(element('table', element('tablerow', cell(square), cell(paragraph('z')))));
  const [outer, inner, left, first] = [...keysOf(view, 'table'), ...keysOf(view, 'td')];
  const [, , second] = keysOf(view, 'td'), right = keysOf(view, 'td').at(-1);
  const inA = [[0, 0, 0, 0, 0, 0, 0, 0, 0], 1], inB = [[0, 0, 0, 0, 0, 1, 0, 0, 0], 1], inZ = [[0, 0, 1, 0, 0, 0], 1];
  assert.deepEqual(selected(view, inA, inB), { anchor: first, focus: second, table: inner });
  assert.deepEqual(selected(view, inA, inZ), { anchor: left, focus: right, table: outer });
});

/** The keys of the hosts with one of the tags, in document order. */
function keysOf(view, ...tags) {
  const keys = [];
  const walk = host => {
    if (tags.includes(host.tag)) keys.push(host.key);
    host.children.forEach(walk);
  };
  walk(view.hosts.root);
  return keys;
}

test('every point that the core takes has a place, and that place is of the point', () => {
  const list = element('list', item(text('a')), item());
  const mixed = paragraph('a😀', text('b', 129), { type: 'tab' }, { type: 'linebreak' });
  const { editor, view } = drawn(mixed, paragraph(), list, square);
  let places = 0;
  for (const host of view.hosts) {
    for (const kind of ['text', 'element']) {
      for (let offset = 0; offset < 5; offset += 1) {
        const point = [host.key, offset, kind];
        const { refused } = editor.line({ update: [{ select: range(point) }] });
        const place = placeOf(view, point);
        if (refused && !(kind === 'text' && host.key === 2)) assert.equal(place, null, String(point));
        if (refused) continue;
        const [anchorNode, anchorOffset] = place;
        const caret = { anchorNode, anchorOffset, focusNode: anchorNode, focusOffset: anchorOffset };
        assert.deepEqual(selectionIn(view, caret), range(point));
        places += 1;
      }
    }
  }
  assert.ok(places > 40, `${places} places`);
  assert.equal(placeOf(view, [99, 0, 'text']), null);
});

test("the browser's selection is set only where it says something else", () => {
  const { editor, page, view } = drawn(paragraph('one'), paragraph('two'), square);
  const browser = page.getSelection();
  const shown = select => {
    assert.ok(!editor.line({ update: [{ select }] }).refused);
    show(view, editor.line({ show: 'selection' }).selection, browser);
    return browser.changes;
  };
  assert.equal(shown(range([2, 1, 'text'], [4, 2, 'text'])), 1);
  assert.equal(browser.focusNode.data, 'two');
  assert.equal(shown(range([2, 1, 'text'], [4, 2, 'text'])), 1, 'it says that');
  browser.setBaseAndExtent(nodeAt(view, 0, 0, 0), 0, nodeAt(view, 1), 0);
  assert.equal(shown(range([2, 0, 'text'], [2, 3, 'text'])), 2, 'it means that');
  const [table, first, second, third] = keysOf(view, 'table', 'td');
  for (const [anchor, focus] of [[first, second], [third, second], [second, third], [first, first]]) {
    shown({ anchor, focus, table });
    assert.deepEqual(selectionIn(view, browser), { anchor, focus, table });
  }
  assert.equal(shown({ keys: [1] }), 7);
  assert.equal(browser.anchorNode, null);
  assert.equal(shown(null), 7, 'nothing is selected already');
  browser.setBaseAndExtent(page.createTextNode('elsewhere'), 1, page.createTextNode('there'), 1);
  assert.equal(shown(null), 8, 'what is selected elsewhere stays so');
  show(view, editor.line({ show: 'selection' }).selection);
  show(view, null, null);
});
