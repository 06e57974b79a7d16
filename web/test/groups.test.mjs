// Groups of blocks: an element of the page that no host has, and that nobody sees who asks for hosts, points or places.
import assert from 'node:assert/strict';
import test from 'node:test';
import { View } from '../dom.js';
import { placeOf, selectionIn } from '../selection.js';
import { newPage } from './plain-page.mjs';
import { Random } from './random.mjs';

const newView = groups => new View(newPage().createElement('main'), { groups });
const groupsOf = view => view.element.childNodes.filter(node => view.isGroup(node));
const made = id => ['create', id, id, 'p', {}, null, true];

/** Blocks are in order, and in groups that aren't empty and not too large; few of them are small. */
function check(view, most, ending = null) {
  const groups = groupsOf(view), { children } = view.hosts.root;
  assert.deepEqual(groups.flatMap(group => group.childNodes), children.map(host => view.elementOf(host)));
  assert.deepEqual(view.element.childNodes.filter(node => !groups.includes(node)), ending ? [ending] : []);
  const sizes = groups.map(({ childNodes }) => childNodes.length);
  assert.ok(sizes.every(size => size > 0 && size <= 2 * most), `sizes ${sizes}`);
  assert.ok(sizes.length <= 2 + 3 * children.length / most, `sizes ${sizes}`);
}

test('blocks that come, move and go', () => {
  for (let seed = 1; seed <= 30; seed += 1) {
    const random = new Random(seed), most = 1 + random.below(6), view = newView(most);
    let last = 0;
    for (let index = 0; index < 200; index += 1) {
      const { children } = view.hosts.root, any = () => children[random.below(children.length)]?.id ?? null;
      const before = random.below(3) === 0 ? null : any(), chosen = any(), isWaning = index > 120;
      const kind = chosen === null || before === chosen ? 0 : random.below(isWaning ? 8 : 3);
      if (kind === 0) view.apply([made(last += 1), ['place', 0, last, before]]);
      else view.apply([kind === 1 ? ['place', 0, chosen, before] : ['drop', chosen]]);
      check(view, most);
    }
  }
});

test('many blocks that are appended fill one group after another, and leave none behind', () => {
  const view = newView(64), ids = Array.from({ length: 200 }, (_, index) => index + 1);
  view.apply(ids.flatMap(id => [made(id), ['place', 0, id, null]]));
  assert.deepEqual(groupsOf(view).map(({ childNodes }) => childNodes.length), [64, 64, 64, 8]);
  const again = new View(view.element.ownerDocument.createElement('main'), { hosts: view.hosts, groups: 64 });
  check(again, 64);
  again.apply(ids.map(id => ['drop', id]));
  check(again, 64);
});

test('the ending of host 0 stays behind all groups', () => {
  const view = newView(2);
  view.apply([['break', 0, true]]);
  const ending = view.element.childNodes[0];
  for (const id of [1, 2, 3]) view.apply([made(id), ['place', 0, id, null]]);
  check(view, 2, ending);
});

test('a block in the place of another one, and what is put below a block', () => {
  const view = newView(1);
  view.apply([1, 2, 3].flatMap(id => [made(id), ['place', 0, id, null]]));
  view.apply([['create', 4, 4, 'ul', {}, null, false], ['place', 0, 4, 2], ['place', 4, 2, null], ['drop', 3]]);
  check(view, 1);
  assert.equal(view.elementOf(view.hosts.get(2)).parentNode, view.elementOf(view.hosts.get(4)));
});

test('places around groups are points between blocks, there and back', () => {
  const view = newView(2), at = (anchorNode, anchorOffset) => (
    selectionIn(view, { anchorNode, anchorOffset, focusNode: anchorNode, focusOffset: anchorOffset }).anchor
  );
  view.apply([1, 2, 3, 4, 5].flatMap(id => [made(id), ['place', 0, id, null]]));
  const groups = groupsOf(view), page = view.element.ownerDocument;
  assert.deepEqual([0, 1, 2, 3].map(offset => at(view.element, offset)[1]), [0, 2, 4, 5]);
  groups.forEach((group, index) => {
    assert.equal(view.hostAround(group), view.hosts.root);
    group.childNodes.forEach((_, offset) => assert.deepEqual(at(group, offset), [0, 2 * index + offset, 'element']));
  });
  assert.deepEqual([at(groups[0], 2)[1], at(groups[2], 1)[1]], [2, 5]);
  for (let offset = 0; offset <= 5; offset += 1) {
    assert.deepEqual(at(...placeOf(view, [0, offset, 'element'])), [0, offset, 'element']);
  }
  const foreign = groups[0].appendChild(page.createElement('b'));
  assert.deepEqual([at(foreign, 0)[1], at(foreign, 1)[1]], [2, 2]);
  view.element.insertBefore(page.createElement('b'), groups[1]);
  assert.deepEqual([at(view.element, 1)[1], at(view.element, 2)[1]], [2, 2]);
});

test('groups of no number are none', () => {
  for (const none of [0, -1, 1.5, '2', null, true]) assert.throws(() => newView(none), TypeError);
  assert.equal(newView().isGroup(null), false);
});
