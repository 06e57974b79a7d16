// Hosts that follow an editor, and how they are compared with what it shows.
import assert from 'node:assert/strict';
import { Hosts } from '../hosts.js';

const FIRST = 100; // commits after each of which a view is compared, unless it is large
const MANY = 1000; // hosts of a large view

/** Whether so many commits are worth a comparison, which costs as much as there are hosts. */
function isDue(commits, waiting, { size }) {
  return commits <= FIRST && size <= MANY || waiting * 4 >= size;
}

/** Applies the replies to lines to new hosts, and compares these after commits; at the latest after the last line. */
export function follow(editor, lines, compare = compareViews) {
  const hosts = new Hosts();
  let commits = 0, waiting = 0;
  for (const line of lines) {
    const { ops } = JSON.parse(Buffer.from(editor.bytes(line)).toString());
    if (!ops) continue;
    hosts.apply(ops);
    commits += 1;
    waiting += 1;
    if (!isDue(commits, waiting, hosts)) continue;
    compare(hosts, editor);
    waiting = 0;
  }
  if (waiting > 0) compare(hosts, editor);
  return hosts;
}

/** Hosts print what the editor shows. Folded, and applied to nothing, they print it too, with the same ids and keys. */
export function compareViews(hosts, editor) {
  const { view } = editor.line({ show: 'view' });
  assert.equal(hosts.html(), view);
  const again = new Hosts();
  again.apply(hosts.fold());
  assert.equal(again.html(), view);
  assert.equal(again.size, hosts.size); // no host stays behind that isn't placed
  for (const { id, key, parent } of again) {
    const host = hosts.get(id);
    assert.ok(host.key === key && host.parent?.id === parent?.id && hosts.ofKey(key) === host, `host ${id}`);
    assert.ok(again.ofKey(key).id === id, `key ${key}`);
  }
}

/** All that a tree of hosts is. */
export function wholeOf(hosts) {
  return JSON.stringify([...hosts].map(host => [
    host.id, host.key, host.tag, [...host.attributes], host.text, host.ending,
    host.parent?.id, host.children.map(({ id }) => id), hosts.get(host.id) === host, hosts.ofKey(host.key).id,
  ]));
}
