// Hosts drawn into a page: text as text, attributes as attributes, and of those only what can do no harm.
//
//   const view = new View(document.querySelector('#page'));
//   const reply = editor.line(line);
//   if (reply.ops) view.apply(reply.ops);
import { drawnValue, namesAfter } from './drawn.js';
import { Groups } from './groups.js';
import { HostTree } from './host-tree.js';
import { Hosts } from './hosts.js';
import { safeProperties, safeSchemes } from './safe.js';

/** @typedef {import('./replies.js').Operation} Operation */
/** @typedef {import('./host-node.js').HostNode} HostNode */
/** @typedef {import('./host-tree.js').Effect} Effect */
/** @typedef {import('./dom.js').ViewOptions} ViewOptions */

/**
 * What shows a host: its outer element, the one that its children or its text are in, its text, and the line break at
 * its end.
 * @typedef {{ outer: HTMLElement, inside: HTMLElement, text: Text | null, ending: Element | null }} Drawn
 */

export class View {
  hosts;
  element;
  #document;
  #lists;
  /** @type {Groups | null} */
  #groups = null;
  /** @type {WeakMap<HostNode, Drawn>} */
  #drawn = new WeakMap();
  /**
   * The way back from the page.
   * @type {WeakMap<Node, HostNode>}
   */
  #hosts = new WeakMap();

  /**
   * @param {Element} element
   * @param {ViewOptions} [options]
   */
  constructor(element, options = {}) {
    const { schemes = [], styles = [], hosts = new Hosts(), groups } = options;
    const tree = /** @type {unknown} */ (hosts);
    if (element?.nodeType !== 1) throw new TypeError('a view is drawn into an element');
    if (!(tree instanceof HostTree)) throw new TypeError('the hosts of a view are Hosts');
    this.hosts = hosts;
    this.#document = element.ownerDocument;
    this.#lists = {
      schemes: [...safeSchemes, ...words('schemes', schemes)],
      properties: [...safeProperties, ...words('styles', styles)],
    };
    for (const host of tree) this.#make(host);
    if (groups !== undefined) this.#groups = new Groups(this.#of(tree.root).inside, groups);
    for (const host of tree) for (const child of host.children) this.#put(child, host, null);
    this.element = this.#of(tree.root).outer;
    element.replaceChildren(this.element);
    tree.draw = effects => effects.forEach(effect => this.#draw(effect));
  }

  /**
   * Does all operations, or none.
   * @param {readonly Operation[]} ops
   */
  apply(ops) {
    this.hosts.apply(ops);
  }

  /**
   * @param {Node} node
   * @returns {HostNode | null}
   */
  hostAround(node) {
    /** @type {HostNode | undefined} */
    let found;
    for (let at = /** @type {Node | null} */ (node); at; at = at.parentNode) {
      found ??= this.#hosts.get(at);
      if (at === this.element) return /** @type {HostNode} */ (found);
    }
    return null; // it isn't in the page, or in what is dropped
  }

  /** @param {HostNode} host */
  elementOf(host) {
    return this.#of(host).outer;
  }

  /** @param {HostNode} host */
  insideOf(host) {
    return this.#of(host).inside;
  }

  /** @param {HostNode} host */
  textOf(host) {
    return this.#of(host).text;
  }

  /** @param {Node | null} node */
  isGroup(node) {
    return this.#groups?.has(node) ?? false;
  }

  /** @param {HostNode} host */
  #of(host) {
    const drawn = this.#drawn.get(host);
    if (!drawn) throw new TypeError('this is no host of the view');
    return drawn;
  }

  /**
   * Draws what an operation has done. What a host shows is read from the host, and so is drawn as it is in the end.
   * Where hosts are put is drawn in turn, since each place is told by others.
   * @param {Effect} effect
   */
  #draw(effect) {
    const { host } = effect;
    switch (effect.name) {
      case 'create': this.#make(host); break;
      case 'place': this.#put(host, effect.parent, effect.before); break;
      case 'drop': this.#remove(host); break;
      case 'text': this.#showText(host); break;
      case 'attr': this.#showAttribute(host, effect.attribute); break;
      case 'break': this.#showEnding(host); break;
    }
  }

  /** @param {HostNode} host */
  #make(host) {
    const elements = host.tag.split('>').map(word => this.#document.createElement(word));
    const [outer] = elements, inside = elements[elements.length - 1];
    if (inside !== outer) outer.appendChild(inside);
    for (const element of elements) this.#hosts.set(element, host);
    this.#drawn.set(host, { outer, inside, text: null, ending: null });
    for (const name of host.attributes.keys()) this.#showAttribute(host, name);
    if (host.text !== null) this.#showText(host);
    if (host.ending) this.#showEnding(host);
  }

  /**
   * @param {HostNode} host
   * @param {HostNode} parent
   * @param {HostNode | null} before
   */
  #put(host, parent, before) {
    const { inside, ending } = this.#of(parent), { outer } = this.#of(host), left = outer.parentNode;
    const next = before && this.#of(before).outer, behind = next ?? ending;
    // Where something else has moved an element of the page, what can't go before it goes to the end.
    if (this.#groups && parent.id === 0) this.#groups.put(outer, next, ending);
    else inside.insertBefore(outer, behind?.parentNode === inside ? behind : null);
    this.#groups?.tidy(left);
  }

  /** @param {HostNode} host */
  #remove(host) {
    const { outer } = this.#of(host), left = outer.parentNode;
    outer.remove();
    this.#groups?.tidy(left);
  }

  /**
   * Writes a text that the page doesn't have yet: typed text stays untouched, and with it the browser's caret.
   * @param {HostNode} host
   */
  #showText(host) {
    const drawn = this.#of(host), data = host.text ?? '';
    if (!drawn.text) {
      drawn.text = this.#document.createTextNode(data);
      this.#hosts.set(drawn.text, host);
    }
    if (drawn.text.parentNode !== drawn.inside) drawn.inside.insertBefore(drawn.text, drawn.inside.firstChild);
    if (drawn.text.data !== data) rewrite(drawn.text, data);
  }

  /**
   * @param {HostNode} host
   * @param {string} changed
   */
  #showAttribute(host, changed) {
    const { outer } = this.#of(host);
    for (const name of namesAfter(changed)) {
      const value = drawnValue(host, name, this.#lists);
      if (value === null) outer.removeAttribute(name);
      else outer.setAttribute(name, value);
    }
  }

  /** @param {HostNode} host */
  #showEnding(host) {
    const drawn = this.#of(host);
    if (host.ending) drawn.ending = drawn.inside.appendChild(drawn.ending ?? this.#document.createElement('br'));
    else drawn.ending?.remove();
    if (!host.ending) drawn.ending = null;
  }
}

/**
 * Writes into a text what is new alone: a browser then lays out less of it, and leaves its caret where that can stay.
 * @param {Text} text
 * @param {string} data
 */
function rewrite(text, data) {
  const was = text.data, shorter = Math.min(was.length, data.length);
  let start = 0, end = 0;
  while (start < shorter && was[start] === data[start]) start += 1;
  while (end < shorter - start && was[was.length - 1 - end] === data[data.length - 1 - end]) end += 1;
  text.replaceData(start, was.length - start - end, data.slice(start, data.length - end));
}

/**
 * @param {string} option
 * @param {readonly string[]} given
 */
function words(option, given) {
  if (Array.isArray(given) && given.every(word => typeof word === 'string')) return given;
  throw new TypeError(`${option} are a list of strings`);
}
