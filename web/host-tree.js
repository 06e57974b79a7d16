// The tree of hosts, and what operations do to it. Each operation is checked against what those before it have left,
// and what they did is undone if one doesn't fit. The same record of what was done tells a page what to draw.
import { ContentError } from './content-error.js';
import { HostNode, link, unlink, walk } from './host-node.js';
import { contentOf, formFault, shown } from './operations.js';

/** @typedef {import('./replies.js').Operation} Operation */
/** @typedef {import('./replies.js').Attributes} Attributes */
/** @typedef {{ host: HostNode, parent: HostNode | null, before: HostNode | null }} Place */

/**
 * What an operation has done, and what was before it.
 * @typedef {{ name: 'create', host: HostNode }
 *   | { name: 'place', host: HostNode, parent: HostNode, before: HostNode | null, was: Place }
 *   | { name: 'drop', host: HostNode, gone: HostNode[], was: Place, wasLast: number }
 *   | { name: 'text', host: HostNode, was: string | null }
 *   | { name: 'attr', host: HostNode, attribute: string, was: string | undefined }
 *   | { name: 'break', host: HostNode, was: boolean }} Effect
 */

/** Levels of hosts above which nothing is placed: documents have 48, and twice as many while hosts move. */
const DEEPEST = 128;

/** Why an operation doesn't fit; it becomes a ContentError with the operation's index. */
class Misfit extends Error {}

/** @type {(host: HostNode) => Place} */
const placeOf = host => ({ host, parent: host.parent, before: host.next });

export class HostTree {
  root = new HostNode(0, 0, 'div', {}, null, false);
  /** @type {Map<number, HostNode>} */
  #byId = new Map([[0, this.root]]);
  /**
   * The host of each key that was made last.
   * @type {Map<number, HostNode>}
   */
  #byKey = new Map([[0, this.root]]);
  /**
   * Draws what was done. A view sets it.
   * @internal
   * @type {(effects: Effect[]) => void}
   */
  draw = () => {};
  /** The greatest id that was dropped: ids count up, so up to it none is given again. */
  #lastDropped = 0;

  /** How many hosts there are, placed or not. */
  get size() {
    return this.#byId.size;
  }

  /** All hosts, placed or not. */
  [Symbol.iterator]() {
    return this.#byId.values();
  }

  /** @param {number} id */
  get(id) {
    const host = this.#byId.get(id);
    return host?.isGone ? undefined : host;
  }

  /** @param {number} key */
  ofKey(key) {
    return this.#byKey.get(key);
  }

  /**
   * Does all operations, or none, and has the view draw what they did.
   * @param {readonly Operation[]} ops
   */
  apply(ops) {
    this.draw(this.#change(ops));
  }

  /**
   * @param {readonly Operation[]} ops
   * @returns {Effect[]}
   */
  #change(ops) {
    if (!Array.isArray(ops)) throw notOperations(ops);
    /** @type {Effect[]} */
    const effects = [];
    try {
      for (const op of ops) effects.push(this.#done(op));
    } catch (error) {
      for (let index = effects.length - 1; index >= 0; index -= 1) this.#undo(effects[index]);
      if (!(error instanceof Misfit)) throw error;
      const index = effects.length;
      throw new ContentError('operation', `operation ${index}, ${shown(ops[index])}, doesn't fit: ${error.message}`);
    }
    for (const effect of effects) if (effect.name === 'drop') effect.gone.forEach(host => this.#forget(host));
    return effects;
  }

  /**
   * @param {Operation} op
   * @returns {Effect}
   */
  #done(op) {
    const fault = formFault(op);
    if (fault) throw new Misfit(fault);
    switch (op[0]) {
      case 'create': return this.#create(op);
      case 'place': return this.#place(op);
      case 'drop': return this.#drop(this.#found(op[1]));
      case 'text': return setText(this.#found(op[1]), op[2]);
      case 'attr': return setAttribute(this.#found(op[1]), op[2], op[3]);
      case 'break': return setEnding(this.#found(op[1]), op[2]);
    }
  }

  /** @param {number} id */
  #found(id) {
    const host = this.get(id);
    if (!host) throw new Misfit(`there is no host ${id}`);
    return host;
  }

  /**
   * @param {Extract<Operation, [name: 'create', ...rest: any]>} op
   * @returns {Effect}
   */
  #create([, id, key, tag, attributes, text, ending]) {
    if (this.#byId.has(id)) throw new Misfit(`there is a host ${id}`);
    if (id <= this.#lastDropped) throw new Misfit(`ids count up, and ${this.#lastDropped} was dropped`);
    if (text !== null && contentOf(tag) !== 'text') throw new Misfit(`a host of the tag ${tag} has no text`);
    if (ending && contentOf(tag) === 'nothing') throw new Misfit(`a host of the tag ${tag} has nothing inside`);
    const host = new HostNode(id, key, tag, attributes, text, ending);
    host.older = this.#byKey.get(key) ?? null;
    if (host.older) host.older.newer = host;
    this.#byId.set(id, host);
    this.#byKey.set(key, host);
    return { name: 'create', host };
  }

  /**
   * @param {Extract<Operation, [name: 'place', ...rest: any]>} op
   * @returns {Effect}
   */
  #place([, parentId, id, beforeId]) {
    const parent = this.#found(parentId), host = this.#found(id);
    const before = beforeId === null ? null : this.#found(beforeId);
    if (host === this.root) throw new Misfit('host 0 stays where it is');
    if (contentOf(parent.tag) !== 'hosts') throw new Misfit(`a host of the tag ${parent.tag} has no children`);
    if (before && before.parent !== parent) throw new Misfit(`host ${before.id} is no child of host ${parent.id}`);
    if (before === host) throw new Misfit('a host goes before another one');
    checkAbove(parent, host);
    const was = placeOf(host);
    unlink(host);
    link(host, parent, before);
    return { name: 'place', host, parent, before, was };
  }

  /**
   * @param {HostNode} host
   * @returns {Effect}
   */
  #drop(host) {
    if (host === this.root) throw new Misfit('host 0 stays');
    const was = placeOf(host), wasLast = this.#lastDropped;
    /** @type {HostNode[]} */
    const gone = [];
    walk(host, below => {
      below.isGone = true;
      gone.push(below);
      this.#lastDropped = Math.max(this.#lastDropped, below.id);
    });
    unlink(host);
    return { name: 'drop', host, gone, was, wasLast };
  }

  /** @param {Effect} effect */
  #undo(effect) {
    const { host } = effect;
    switch (effect.name) {
      case 'create': this.#forget(host); break;
      case 'place': putBack(effect.was); break;
      case 'drop':
        for (const below of effect.gone) below.isGone = false;
        this.#lastDropped = effect.wasLast;
        putBack(effect.was);
        break;
      case 'text': host.text = effect.was; break;
      case 'attr': writeAttribute(host, effect.attribute, effect.was ?? null); break;
      case 'break': host.ending = effect.was; break;
    }
  }

  /**
   * Takes a host out of the tables.
   * @param {HostNode} host
   */
  #forget(host) {
    this.#byId.delete(host.id);
    const { older, newer } = host;
    if (older) older.newer = newer;
    if (newer) newer.older = older;
    else if (older) this.#byKey.set(host.key, older);
    else this.#byKey.delete(host.key);
  }
}

/**
 * Checks that a host isn't placed below itself. The way up is bounded, so that many moves in a deep tree cost no more.
 * @param {HostNode} parent
 * @param {HostNode} host
 */
function checkAbove(parent, host) {
  let levels = 0;
  /** @type {HostNode | null} */
  let above = parent;
  for (; above; above = above.parent) {
    if (above === host) throw new Misfit(`host ${parent.id} is below host ${host.id}, or is it`);
    levels += 1;
    if (levels > DEEPEST) throw new Misfit(`host ${parent.id} is deeper than any host of a document`);
  }
}

/** @param {Place} place */
function putBack({ host, parent, before }) {
  unlink(host);
  if (parent) link(host, parent, before);
}

/**
 * @param {HostNode} host
 * @param {string} text
 * @returns {Effect}
 */
function setText(host, text) {
  if (contentOf(host.tag) !== 'text') throw new Misfit(`a host of the tag ${host.tag} has no text`);
  const was = host.text;
  host.text = text;
  return { name: 'text', host, was };
}

/**
 * @param {HostNode} host
 * @param {string} attribute
 * @param {string | null} value
 * @returns {Effect}
 */
function setAttribute(host, attribute, value) {
  const was = host.attributes.get(attribute);
  writeAttribute(host, attribute, value);
  return { name: 'attr', host, attribute, was };
}

/**
 * @param {HostNode} host
 * @param {string} attribute
 * @param {string | null} value
 */
function writeAttribute(host, attribute, value) {
  if (value === null) host.attributes.delete(attribute);
  else host.attributes.set(attribute, value);
}

/**
 * @param {HostNode} host
 * @param {boolean} ending
 * @returns {Effect}
 */
function setEnding(host, ending) {
  if (ending && contentOf(host.tag) === 'nothing') throw new Misfit(`a host of the tag ${host.tag} has nothing inside`);
  const was = host.ending;
  host.ending = ending;
  return { name: 'break', host, was };
}

/**
 * What isn't a list: from a reply it is content; what JSON doesn't have is a mistake in the program.
 * @param {unknown} ops
 */
function notOperations(ops) {
  const isFromJson = ops === null || ['object', 'string', 'number', 'boolean'].includes(typeof ops);
  if (isFromJson) return new ContentError('operation', `operations are a list, not ${shown(ops)}`);
  return new TypeError(`operations are a list, not ${typeof ops}: a reply without ops has none to apply`);
}
