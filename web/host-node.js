// A host, and how hosts stand below each other: each knows its neighbours, so a move costs the same wherever it goes.

/** A host as the tree keeps it; others may read what hosts.d.ts says of it. */
export class HostNode {
  /** @type {HostNode | null} */
  parent = null;
  /** @type {HostNode | null} */
  first = null;
  /** @type {HostNode | null} */
  last = null;
  /** @type {HostNode | null} */
  previous = null;
  /** @type {HostNode | null} */
  next = null;
  /**
   * The host of the same key that was made before it, and in `newer` the one after it.
   * @type {HostNode | null}
   */
  older = null;
  /** @type {HostNode | null} */
  newer = null;
  /** Whether it is dropped: it leaves the tables once all operations have fitted. */
  isGone = false;

  /**
   * @param {number} id
   * @param {number} key
   * @param {string} tag
   * @param {Record<string, string>} attributes
   * @param {string | null} text
   * @param {boolean} ending
   */
  constructor(id, key, tag, attributes, text, ending) {
    this.id = id;
    this.key = key;
    this.tag = tag;
    /** @type {Map<string, string>} */
    this.attributes = new Map(Object.entries(attributes));
    this.text = text;
    this.ending = ending;
  }

  /** The hosts right below it, in order. */
  get children() {
    const children = [];
    for (let child = this.first; child; child = child.next) children.push(child);
    return children;
  }
}

/**
 * Puts a host that is below nothing among the children of a parent, last if there is none to go before.
 * @param {HostNode} host
 * @param {HostNode} parent
 * @param {HostNode | null} before
 */
export function link(host, parent, before) {
  const previous = before ? before.previous : parent.last;
  host.parent = parent;
  host.previous = previous;
  host.next = before;
  if (previous) previous.next = host;
  else parent.first = host;
  if (before) before.previous = host;
  else parent.last = host;
}

/**
 * Takes a host out from below its parent, if it has one.
 * @param {HostNode} host
 */
export function unlink(host) {
  const { parent, previous, next } = host;
  if (!parent) return;
  if (previous) previous.next = next;
  else parent.first = next;
  if (next) next.previous = previous;
  else parent.last = previous;
  host.parent = host.previous = host.next = null;
}

/**
 * Goes through a host and all below it, however deep: `enter` comes before what is below a host, `leave` after it.
 * @param {HostNode} top
 * @param {(host: HostNode) => void} enter
 * @param {(host: HostNode) => void} [leave]
 */
export function walk(top, enter, leave = () => {}) {
  let host = top;
  enter(host);
  for (;;) {
    if (host.first) {
      host = host.first;
      enter(host);
      continue;
    }
    leave(host);
    while (host !== top && !host.next) {
      host = /** @type {HostNode} */ (host.parent);
      leave(host);
    }
    if (host === top) return;
    host = /** @type {HostNode} */ (host.next);
    enter(host);
  }
}
