import type { Host, Hosts } from './hosts.js';
import type { Operation } from './replies.js';

export interface ViewOptions {
  /** Schemes of addresses that links may have, beside `http`, `https`, `mailto` and `tel`. */
  schemes?: readonly string[];
  /** Properties that a text's style may set, beside those of safe.js. */
  styles?: readonly string[];
  /** Hosts that are there already. They are drawn at once, and from then on by this view instead of an earlier one. */
  hosts?: Hosts;
  /**
   * Where documents are long: so many children of host 0 are together in a `div` of class `blocks`, up to twice as many
   * where some come between. A browser lays out few groups sooner than many blocks. Without it there are none.
   */
  groups?: number;
}

/**
 * Hosts drawn into a page. No text becomes HTML, and of attributes only what can do no harm is set: an address of
 * another scheme and an attribute that isn't known are left out, a style is reduced, and a `target` has
 * `rel="noopener"`.
 */
export class View {
  /** Fills the element with one `div`, which shows host 0. What was in it goes. */
  constructor(element: Element, options?: ViewOptions);
  readonly hosts: Hosts;

  /** The element of host 0, inside the one that was given. */
  readonly element: HTMLElement;

  /** The same as `hosts.apply`: if an operation doesn't fit, it throws a `ContentError`, and nothing has changed. */
  apply(ops: readonly Operation[]): void;

  /** The host that shows a node of the page: its own, or that of the nearest element around it; null outside. */
  hostAround(node: Node): Host | null;

  /** The outer element of a host. */
  elementOf(host: Host): HTMLElement;

  /** The element that its children, or its text, are in: of a tag such as `mark>strong` the inner one. */
  insideOf(host: Host): HTMLElement;

  /** Whether a node is one of the groups that the children of host 0 are in. They are in its element. */
  isGroup(node: Node | null): boolean;

  /** Its text node, or null if it has no text. */
  textOf(host: Host): Text | null;
}
