// What a node shows after a commit, by the commit's operations alone: the hosts stay as they were before.
import { ContentError } from './content-error.js';

/** @typedef {import('./hosts.js').Host} Host */
/** @typedef {import('./hosts.js').Hosts} Hosts */
/** @typedef {import('./replies.js').Operation} Operation */

/** What a node shows after a commit, which may make another host of its key. */
export class NodeAfter {
  /** Whether the commit writes texts of other nodes, to which a piece of this one may have gone. */
  writesOthers = false;
  /**
   * The hosts that have shown the node.
   * @type {Set<number>}
   */
  #ids;
  /** @type {Map<number, string | null>} */
  #texts;
  /** @type {Map<number, Siblings>} */
  #children;
  /** @type {Set<number>} */
  #dropped = new Set();
  /** @type {Map<number, number>} */
  #parents = new Map();
  /**
   * The keys of the hosts that the commit makes.
   * @type {Map<number, number>}
   */
  #keys = new Map();
  /** @type {Set<number>} */
  #made = new Set();
  #hosts;

  /**
   * @param {Hosts} hosts
   * @param {Host} host
   * @param {readonly Operation[]} ops
   */
  constructor(hosts, host, ops) {
    this.#hosts = hosts;
    this.key = host.key;
    this.#ids = new Set([host.id]);
    this.#texts = new Map([[host.id, host.text]]);
    this.#children = new Map([[host.id, new Siblings(host.children.map(({ id }) => id))]]);
    for (const operation of ops) this.#follow(operation);
  }

  /** @param {Operation} operation */
  #follow(operation) {
    switch (operation?.[0]) {
      case 'create': return this.#create(operation[1], operation[2], operation[5]);
      case 'place': return this.#place(operation[1], operation[2], operation[3]);
      case 'drop': return this.#drop(operation[1]);
      case 'text': return this.#write(operation[1], operation[2]);
      case 'attr': case 'break': return;
      default: throw new ContentError('operation', `this is no operation: ${JSON.stringify(operation)}`);
    }
  }

  /**
   * @param {number} id
   * @param {number} key
   * @param {string | null} text
   */
  #create(id, key, text) {
    this.#keys.set(id, key);
    this.#made.add(key);
    if (key === this.key) {
      this.#ids.add(id);
      this.#children.set(id, new Siblings([]));
      this.#texts.set(id, text);
    } else if (text !== null) this.writesOthers = true;
  }

  /**
   * @param {number} parent
   * @param {number} child
   * @param {number | null} before
   */
  #place(parent, child, before) {
    this.#leave(child);
    this.#parents.set(child, parent);
    this.#children.get(parent)?.put(child, before);
  }

  /** @param {number} id */
  #drop(id) {
    this.#leave(id);
    this.#dropped.add(id);
  }

  /** @param {number} id */
  #leave(id) {
    const parent = this.#parentOf(id);
    if (parent !== null) this.#children.get(parent)?.take(id);
  }

  /**
   * @param {number} id
   * @param {string} text
   */
  #write(id, text) {
    if (this.#ids.has(id)) this.#texts.set(id, text);
    else this.writesOthers = true;
  }

  /** @param {number} id */
  #parentOf(id) {
    return this.#parents.get(id) ?? this.#hosts.get(id)?.parent?.id ?? null;
  }

  /**
   * Whether a host is in the tree after the commit. What is below a dropped one went with it.
   * @param {number} id
   */
  #isThere(id) {
    const top = this.#hosts.root.id;
    /** @type {Set<number>} */
    const passed = new Set();
    /** @type {number | null} */
    let at = id;
    for (; at !== null && at !== top && !this.#dropped.has(at); at = this.#parentOf(at)) {
      if (passed.has(at)) throw new ContentError('operation', `host ${at} is put below itself`);
      passed.add(at);
    }
    return at === top;
  }

  /**
   * Whether a child that isn't below the node any more may be elsewhere: as it was, or as part of another text.
   * @param {Host} child
   */
  isElsewhere({ id, key, text }) {
    return this.#isThere(id) || this.#made.has(key) || (text !== null && this.writesOthers);
  }

  /** The host that shows the node in the end, if one does. */
  get #last() {
    return [...this.#ids].find(id => this.#isThere(id));
  }

  /** The node's text, or null where it has none any more. */
  get text() {
    const id = this.#last;
    return id === undefined ? null : this.#texts.get(id) ?? null;
  }

  /** The keys of the node's children, or null where it isn't there any more. */
  get children() {
    const id = this.#last;
    if (id === undefined) return null;
    const siblings = /** @type {Siblings} */ (this.#children.get(id));
    return siblings.all().map(child => this.#keys.get(child) ?? this.#hosts.get(child)?.key ?? -1);
  }
}

const ENDS = -1; // stands before the first and behind the last

/** Numbers in an order, of which one is put before another or taken out in one step. */
class Siblings {
  /** @type {Map<number, number>} */
  #next = new Map([[ENDS, ENDS]]);
  /** @type {Map<number, number>} */
  #previous = new Map([[ENDS, ENDS]]);

  /** @param {number[]} ids */
  constructor(ids) {
    for (const id of ids) this.put(id, null);
  }

  /**
   * @param {number} id
   * @param {number | null} before
   */
  put(id, before) {
    const next = before ?? ENDS, previous = this.#previous.get(next);
    if (previous === undefined) throw new ContentError('operation', `host ${before} has another parent`);
    this.#join(previous, id);
    this.#join(id, next);
  }

  /** @param {number} id */
  take(id) {
    const previous = this.#previous.get(id), next = this.#next.get(id);
    if (previous === undefined || next === undefined) return;
    this.#join(previous, next);
    this.#previous.delete(id);
    this.#next.delete(id);
  }

  /** In order. */
  all() {
    const ids = [];
    for (let id = this.#next.get(ENDS); id !== undefined && id !== ENDS; id = this.#next.get(id)) ids.push(id);
    return ids;
  }

  /**
   * @param {number} previous
   * @param {number} next
   */
  #join(previous, next) {
    this.#next.set(previous, next);
    this.#previous.set(next, previous);
  }
}
