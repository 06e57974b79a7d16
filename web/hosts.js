// The tree of elements that a commit's operations make and change, without a page. dom.js draws it into one.
//
//   const hosts = new Hosts();
//   const reply = editor.line(line);
//   if (reply.ops) hosts.apply(reply.ops);
//   hosts.html();
import { HostTree } from './host-tree.js';
import { walk } from './host-node.js';
import { contentOf } from './operations.js';

/** @typedef {import('./replies.js').Operation} Operation */
/** @typedef {import('./host-node.js').HostNode} HostNode */

/** @type {Record<string, string>} */
const written = { '&': '&amp;', '<': '&lt;', '>': '&gt;', '"': '&quot;' };

export class Hosts extends HostTree {
  /**
   * Operations that draw the same view from nothing, each parent before its children. Hosts that aren't placed aren't
   * drawn, nor what is below them.
   * @returns {Operation[]}
   */
  fold() {
    /** @type {Operation[]} */
    const ops = [];
    walk(this.root, host => {
      const { id, key, tag, text, ending, parent } = host;
      if (!parent) return ops.push(...changesOf(host));
      ops.push(['create', id, key, tag, Object.fromEntries(sorted(host)), text, ending]);
      ops.push(['place', parent.id, id, null]);
    });
    return ops;
  }

  /** The view as HTML, as `{"show":"view"}` says it. Addresses and styles in it are as they were given. */
  html() {
    /** @type {string[]} */
    const pieces = [];
    walk(this.root, host => pieces.push(opening(host)), host => pieces.push(closing(host)));
    return pieces.join('');
  }
}

/**
 * What host 0, which nothing creates, has got since the start.
 * @param {HostNode} root
 * @returns {Operation[]}
 */
function changesOf(root) {
  /** @type {Operation[]} */
  const changes = sorted(root).map(([name, value]) => ['attr', root.id, name, value]);
  if (root.ending) changes.push(['break', root.id, true]);
  return changes;
}

/**
 * The attributes in byte order of their names, which are ASCII.
 * @param {HostNode} host
 */
function sorted(host) {
  return [...host.attributes].sort(([one], [other]) => one < other ? -1 : 1);
}

/** @param {string} text */
function escaped(text) {
  return text.replace(/[&<>"]/g, character => written[character]);
}

/** @param {HostNode} host */
function opening(host) {
  const attributes = sorted(host).map(([name, value]) => ` ${name}="${escaped(value)}"`).join('');
  const [outer, ...inner] = host.tag.split('>');
  const start = `<${outer}${attributes}>${inner.map(word => `<${word}>`).join('')}`;
  return host.text === null ? start : start + escaped(host.text);
}

/** @param {HostNode} host */
function closing({ tag, ending }) {
  if (contentOf(tag) === 'nothing') return '';
  return (ending ? '<br>' : '') + tag.split('>').reverse().map(word => `</${word}>`).join('');
}
