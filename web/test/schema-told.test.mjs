// What is said of lines that don't fit, and where.
import assert from 'node:assert/strict';
import test from 'node:test';
import { assertLine, problemsOf } from '../schema.js';
import { changed, randomLine, seeded } from './random-lines.mjs';

const first = line => problemsOf(line).map(({ path, message }) => `${path}: ${message}`)[0];

const point = [2, 0, 'text'];

/** What is said first of lines that are wrong. */
const told = [
  [{ show: 'state', update: [] }, '/update: only show and at may stand here'],
  [{ update: [], id: 7 }, '/id: only update, defer, at and tags may stand here'],
  [{ update: [{ append: 'a', as: 'x' }] }, '/update/0/as: only append may stand here'],
  [{ update: { append: 'a' } }, '/update: a list is asked for'],
  [{ update: [{ append: 'a' }, 'b'] }, '/update/1: an object is asked for'],
  [
    { update: [{ select: { anchor: point, focus: point, format: 0, kind: 'range' } }] },
    '/update/0/select/kind: only anchor, focus and format may stand here',
  ],
  [
    { update: [{ select: { anchor: [2, 0], focus: [2, 0] } }] },
    '/update/0/select/anchor: a list of 3 (a whole number from 0 to 4294967295 or a string; a whole number from 0; '
      + '"text" or "element") is asked for',
  ],
  [
    { update: [{ select: { anchor: [2, -1, 'text'], focus: point } }] },
    '/update/0/select/anchor/1: a whole number from 0 is asked for',
  ],
  [
    { update: [{ select: { anchor: 1, focus: 2, table: 3, kind: 1 } }] },
    '/update/0/select/kind: only anchor, focus and table may stand here',
  ],
  [{ update: [{ select: { anchor: 1, table: 3 } }] }, '/update/0/select: the member focus is missing'],
  [{ update: [{ append: 1 }] }, '/update/0/append: a string is asked for'],
  [{ at: -1, update: [] }, '/at: a whole number from 0 to 9007199254740991 is asked for'],
  [{ update: [{ new: 'paragraph', as: null }] }, '/update/0/as: a string is asked for'],
  [
    { update: [{ new: 'heading', fields: { tag: 'h7' } }] },
    '/update/0/fields/tag: "h1", "h2", "h3", "h4", "h5" or "h6" is asked for',
  ],
  [
    { update: [{ new: 'heading', fields: { tag: 7 } }] },
    '/update/0/fields/tag: null, "h1", "h2", "h3", "h4", "h5" or "h6" is asked for',
  ],
  [{ update: [{ replace: 1, wiht: 2 }] }, '/update/0/wiht: only replace, with and keep may stand here'],
  [{ update: [{ later: [{ wrap: 1, in: 2 }, { wrap: 1 }] }] }, '/update/0/later/1: the member in is missing'],
  [{ listener: { on: 'sign', priority: 0, steps: [] } }, '/listener: the member handled is missing'],
  [{ flush: false }, '/flush: true is asked for'],
  [
    { dispatch: 'insert-text', payload: 1 },
    '/payload: null, a string or a list of 3 (a whole number from 1 to 50; a whole number from 1 to 50; true or false) '
      + 'is asked for',
  ],
  [{ update: [{ set: 1, fields: { detail: 4 } }] }, '/update/0/fields/detail: a whole number from 0 to 3 is asked for'],
  [{ rule: { on: 'tab', if: [{ text: 'a', next: 3 }], do: [] } }, '/rule/if/0/next: only text may stand here'],
  [{ rule: { on: 'linebreak', if: [], do: [{ set: { src: 'a' } }] } }, '/rule/do/0/set/src: no member may stand here'],
  [{ rule: { if: [], do: [] } }, '/rule: the member on is missing'],
  [{ update: [{ set: 1, fields: { '~/': 1e999 } }] }, '/update/0/fields/~0~1: JSON has no Infinity'],
  [{ load: { root: { text: '\udc00' } } }, '/load/root/text: there is half a surrogate pair in it'],
  [[], ': an object is asked for'],
];

test('what is said of a line says where, and what is asked for', () => {
  assert.deepEqual(told.map(([line]) => first(line)), told.map(([, said]) => said));
});

/** The place at which two values differ: that of an object or a list, if it has other names or another length. */
function placeOfChange(before, after) {
  const areBoth = [before, after].every(value => typeof value === 'object' && value !== null);
  const names = areBoth ? Object.keys(before) : [];
  if (names.length === 0 || names.join('/') !== Object.keys(after).join('/')) return '';
  const name = names.find(each => JSON.stringify(before[each]) !== JSON.stringify(after[each]));
  return name === undefined ? '' : `/${escaped(name)}${placeOfChange(before[name], after[name])}`;
}

const escaped = name => name.replace(/~/g, '~0').replace(/\//g, '~1');

test('of one wrong thing it is said first where it is, or in what', () => {
  const random = seeded(2);
  const said = Array.from({ length: 2000 }, () => {
    const line = randomLine(random), other = changed(line, random);
    const [problem] = problemsOf(other);
    if (!problem) return [];
    const place = placeOfChange(line, other), holder = place.slice(0, Math.max(place.lastIndexOf('/'), 0));
    const isNear = `${problem.path}/`.startsWith(`${place}/`) || [place, holder].includes(problem.path);
    return [[isNear, place, problem, JSON.stringify(other).slice(0, 500)]];
  }).flat();
  assert.deepEqual(said.filter(([isNear]) => !isNear), []);
  assert.ok(said.length > 1200, `${said.length} lines`);
});

test('lines about views and outlines fit if they are asked for', () => {
  const lines = [{ hub: 'attach' }, { hub: ['html', 3] }, { ask: 'events' }];
  assert.ok(lines.every(line => problemsOf(line).length === 1));
  assert.deepEqual(lines.flatMap(line => problemsOf(line, { layers: true })), []);
  assert.deepEqual(problemsOf({ hub: ['html', -1] }, { layers: true }).map(({ path }) => path), ['/hub/1']);
  assert.throws(() => problemsOf({ hub: 'attach' }, { layers: 1 }), TypeError);
});

test('what JSON has no value for is wrong, and a member that is undefined is none', () => {
  const own = { toJSON: () => 'a' };
  const wrong = [NaN, undefined, () => 1, Symbol('a'), 1n, new Date(0), new Map(), new String('a'), own];
  assert.deepEqual(wrong.map(value => problemsOf({ load: [value] })[0].path), wrong.map(() => '/load/0'));
  assert.deepEqual(problemsOf({ update: [{ append: 'a', as: undefined }], at: undefined, flush: undefined }), []);
  assert.equal(first({ dispatch: undefined }), first({}));
  assert.deepEqual(problemsOf(Object.assign(Object.create(null), { show: 'view' })), []);
  assert.equal(first(Object.create({ show: 'view' })), first({}));
});

test('lines that nest deeper than others can be asked about, and those in themselves', () => {
  let steps = [];
  for (let count = 0; count < 100_000; count++) steps = [{ later: steps }];
  const inItself = { update: [] };
  inItself.update.push(inItself);
  for (const line of [{ update: steps }, inItself]) assert.match(first(line), /: it nests deeper than 127$/);
});

test('a line that must fit throws what is wrong with it', () => {
  assertLine({ update: [] });
  assert.throws(() => assertLine({ update: 1 }), { name: 'TypeError', message: '/update: a list is asked for' });
  assert.throws(() => assertLine('{}'), { name: 'TypeError', message: 'an object is asked for' });
});

test('small lines are checked fast, and long ones in a time that goes with their length', () => {
  const began = process.cpuUsage();
  const line = { update: [{ select: { anchor: [2, 1, 'text'], focus: [2, 2, 'text'] } }] };
  for (let count = 0; count < 20_000; count++) problemsOf(line);
  problemsOf({ update: Array(50_000).fill({ append: 1 }) });
  problemsOf(Object.fromEntries(Array.from({ length: 50_000 }, (_, index) => [`a${index}`, index])));
  const { user } = process.cpuUsage(began);
  assert.ok(user < 10e6, `${user} microseconds of the processor`);
});
