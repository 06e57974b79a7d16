// Operations that don't fit the tree that `begun` makes, and operations with one thing changed at random.

/** A paragraph with a text, a line break and an embed, a quote, a rule, a link, and a host that isn't placed. */
export const begun = [
  ['create', 1, 11, 'p', { dir: 'ltr' }, null, true],
  ['create', 2, 12, 'mark>strong', { class: 'bold' }, 'abc', false],
  ['create', 3, 13, 'br', {}, null, false],
  ['create', 4, 14, 'span', { 'data-src': 'a' }, null, false],
  ['place', 1, 2, null], ['place', 1, 3, null], ['place', 1, 4, null], ['place', 0, 1, null],
  ['create', 5, 15, 'blockquote', {}, null, false],
  ['create', 6, 16, 'p', {}, null, true],
  ['place', 5, 6, null], ['place', 0, 5, null],
  ['create', 7, 17, 'hr', {}, null, false], ['place', 0, 7, 5],
  ['create', 8, 18, 'a', { href: '#', target: '_blank' }, null, false], ['place', 6, 8, null],
  ['create', 9, 19, 'p', {}, null, false], ['drop', 9],
  ['create', 10, 20, 'p', {}, null, false],
];

/** Operations that change the tree in every way, and fit after `begun`, in this order. */
export const fitting = [
  ['create', 11, 12, 'span', {}, 'x', false], ['place', 6, 11, 8], ['place', 6, 11, null], ['text', 2, 'new'],
  ['attr', 1, 'dir', null], ['attr', 1, 'data-align', 'left'], ['attr', 2, 'class', 'other'], ['break', 1, false],
  ['break', 5, true], ['place', 0, 5, 7], ['drop', 8], ['place', 5, 1, 6], ['place', 0, 10, null], ['drop', 2],
  ['attr', 0, 'dir', 'rtl'], ['break', 0, true], ['text', 4, 'made'], ['drop', 5],
];

const deep = Array.from({ length: 100_000 }).reduce(inside => [inside], []);
const create = (...changed) => Object.assign(['create', 11, 21, 'p', {}, null, false], Object.fromEntries(changed));

/** Operations that don't fit after `begun`, and what is said of them. */
export const misfits = [
  [null, 'a list'], [{}, 'a list'], ['drop', 'a list'], [7, 'a list'], [[], 'no operation'], [deep, 'no operation'],
  [['DROP', 1], 'no operation'], [['toString', 1], 'no operation'], [['__proto__', 1], 'no operation'],
  [[['drop'], 1], 'no operation'],
  [['drop'], '2 members'], [['drop', 1, 2], '2 members'], [['place', 0, 1], '4 members'],
  [create().slice(0, 6), '7 members'],
  [['drop', 0], 'host 0'], [['drop', 12], 'no host 12'], [['drop', 9], 'no host 9'], [['drop', '1'], 'id'],
  [['drop', 1.5], 'id'], [['drop', -1], 'id'], [['drop', 2 ** 32], 'id'], [['drop', null], 'id'],
  [['drop', deep], 'id'],
  [create([1, 1]), 'there is a host 1'], [create([1, 0]), 'there is a host 0'], [create([1, 9]), '9 was dropped'],
  [create([1, 2 ** 32 - 1]), 'id'], [create([2, '21']), 'key'], [create([2, -1]), 'key'],
  [create([3, 'script']), 'tag'],
  [create([3, 'P']), 'tag'], [create([3, 'p>p']), 'tag'], [create([3, null]), 'tag'], [create([4, null]), 'attributes'],
  [create([4, []]), 'attributes'], [create([4, { dir: 1 }]), 'attributes'], [create([4, { 'a b': '' }]), 'attributes'],
  [create([4, { 'x>': '' }]), 'attributes'], [create([4, { onClick: '' }]), 'attributes'],
  [create([4, { '': '' }]), 'attributes'],
  [create([5, 1]), 'text'], [create([5, 'a']), 'has no text'], [create([3, 'br'], [5, 'a']), 'has no text'],
  [create([6, null]), 'ending'], [create([6, 0]), 'ending'], [create([3, 'hr'], [6, true]), 'nothing inside'],
  [['place', 0, 0, null], 'host 0'], [['place', 1, 0, null], 'host 0'], [['place', 1, 1, null], 'below'],
  [['place', 6, 5, null], 'below'], [['place', 12, 1, null], 'no host 12'], [['place', 0, 12, null], 'no host 12'],
  [['place', 0, 1, 12], 'no host 12'], [['place', 0, 1, 1], 'another'], [['place', 0, 1, 2], 'no child'],
  [['place', 0, 1, 10], 'no child'],
  [['place', 2, 10, null], 'no children'], [['place', 3, 10, null], 'no children'],
  [['place', 4, 10, null], 'no children'],
  [['place', 0, 1, undefined], 'before'], [['place', 0, 1, '5'], 'before'], [['place', 9, 10, null], 'no host 9'],
  [['text', 1, 'a'], 'no text'], [['text', 3, 'a'], 'no text'], [['text', 0, 'a'], 'no text'],
  [['text', 2, null], 'text'],
  [['text', 2, 1], 'text'], [['text', 12, 'a'], 'no host 12'], [['attr', 1, 'a b', ''], 'name'],
  [['attr', 1, 1, ''], 'name'],
  [['attr', 1, 'dir', 1], 'value'], [['attr', 1, 'dir', undefined], 'value'], [['attr', 9, 'dir', null], 'no host 9'],
  [['break', 3, true], 'nothing inside'], [['break', 7, true], 'nothing inside'], [['break', 1, 'true'], 'ending'],
  [['break', 12, true], 'no host 12'],
];

const others = [
  null, 0, 1, 2, 5, 6, 10, 12, -1, 1.5, 2 ** 32, '', 'p', 'br', 'drop', 'text', true, false, [], {}, { dir: '' },
];

/** Operations with one left out, twice, elsewhere, or with another member. */
export function changedAt(random, ops) {
  const changed = ops.map(op => [...op]), index = random.below(changed.length);
  switch (random.below(5)) {
    case 0: changed.splice(index, 1); break;
    case 1: changed.splice(index, 0, changed[random.below(changed.length)]); break;
    case 2: changed.splice(random.below(changed.length), 0, ...changed.splice(index, 1)); break;
    case 3: changed[index] = random.pick(others); break;
    default: changed[index][random.below(changed[index].length)] = random.pick(others);
  }
  return changed;
}
