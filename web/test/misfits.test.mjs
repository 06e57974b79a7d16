// Operations that don't fit leave hosts as they were, and what is said of them names them.
import assert from 'node:assert/strict';
import test from 'node:test';
import { ContentError } from '../content-error.js';
import { Hosts } from '../hosts.js';
import { wholeOf } from './following.mjs';
import { Random } from './random.mjs';
import { begun, changedAt, fitting, misfits } from './wrong.mjs';

function hostsBegun() {
  const hosts = new Hosts();
  hosts.apply(begun);
  return hosts;
}

test('operations that fit, one by one and together', () => {
  const [hosts, others] = [hostsBegun(), hostsBegun()];
  for (const op of fitting) hosts.apply([op]);
  others.apply(fitting);
  assert.equal(hosts.html(), others.html());
  assert.notEqual(hosts.html(), hostsBegun().html());
});

test('each misfit alone, and behind operations that fit', () => {
  const hosts = hostsBegun(), whole = wholeOf(hosts);
  const reversible = fitting.slice(3, 8); // after these there are the same hosts, at the same places
  for (const [op, said] of misfits) {
    for (const before of [[], reversible]) {
      assert.throws(() => hosts.apply([...before, op, ['nothing']]), error => {
        assert.ok(error instanceof ContentError && error.code === 'operation');
        assert.ok(error.message.startsWith(`operation ${before.length}, `), error.message);
        assert.ok(error.message.includes(said) && error.message.length < 500, error.message);
        return true;
      });
      assert.equal(wholeOf(hosts), whole);
    }
  }
  hosts.apply(fitting);
});

test('all that fits is undone, however far it went', () => {
  const hosts = hostsBegun(), whole = wholeOf(hosts);
  for (let count = 0; count <= fitting.length; count += 1) {
    assert.throws(() => hosts.apply([...fitting.slice(0, count), ['drop', 99]]), /no host 99/);
    assert.equal(wholeOf(hosts), whole);
  }
  hosts.apply(fitting);
});

test('operations that are changed at random fit, or change nothing', () => {
  const random = new Random(1);
  let refused = 0;
  for (let round = 0; round < 1500; round += 1) {
    const hosts = hostsBegun(), whole = wholeOf(hosts);
    const ops = changedAt(random, fitting);
    try {
      hosts.apply(ops);
      const again = new Hosts();
      again.apply(hosts.fold());
      assert.equal(again.html(), hosts.html());
    } catch (error) {
      if (!(error instanceof ContentError)) throw error;
      refused += 1;
      assert.equal(wholeOf(hosts), whole);
    }
  }
  assert.ok(refused > 300 && refused < 1400, `${refused} were refused`);
});

test('a reply that comes twice is refused if it makes hosts', () => {
  const hosts = new Hosts();
  const ops = [['create', 1, 1, 'p', {}, null, true], ['place', 0, 1, null]];
  hosts.apply(ops);
  assert.throws(() => hosts.apply(ops), /there is a host 1/);
  hosts.apply([['drop', 1]]);
  assert.throws(() => hosts.apply(ops), /1 was dropped/);
  assert.equal(hosts.html(), '<div></div>');
});

test('what is no list', () => {
  const hosts = new Hosts();
  for (const value of [null, {}, 'drop', 7, true]) assert.throws(() => hosts.apply(value), { code: 'operation' });
  for (const value of [undefined, () => {}, 1n]) assert.throws(() => hosts.apply(value), TypeError);
});

test('moves far down in a tree that is deeper than documents are refused, since each would walk all the way up', () => {
  const count = 200, hosts = new Hosts();
  const made = Array.from({ length: count }, (_, index) => ['create', index + 1, index + 1, 'div', {}, null, false]);
  const nested = Array.from({ length: count - 2 }, (_, index) => ['place', count - index - 2, count - index - 1, null]);
  hosts.apply([...made, ...nested]);
  assert.throws(() => hosts.apply([['place', count - 1, count, null]]), /deeper than any host of a document/);
});
