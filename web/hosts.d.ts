import type { Operation } from './replies.js';

/** An element of a view, or two nested ones for a tag such as `mark>strong`. It changes as operations change it. */
export interface Host {
  readonly id: number;
  /** The key of the node that it shows. */
  readonly key: number;
  readonly tag: string;
  readonly attributes: ReadonlyMap<string, string>;
  /** The text of a host that shows a text or a tab; null for others. */
  readonly text: string | null;
  /** Whether a line break ends it, which gives an empty line its height. */
  readonly ending: boolean;
  /** Null for host 0, and for hosts that aren't placed. */
  readonly parent: Host | null;
  /** A new list each time. */
  readonly children: readonly Host[];
}

/** The tree of hosts. Host 0 is there from the start, a `div` of key 0. */
export class Hosts implements Iterable<Host> {
  constructor();
  readonly root: Host;

  /** How many hosts there are, placed or not. */
  get size(): number;

  /** All hosts, placed or not. */
  [Symbol.iterator](): IterableIterator<Host>;

  get(id: number): Host | undefined;

  /** The host that shows a node. While several do, as within a commit, it is the one made last. */
  ofKey(key: number): Host | undefined;

  /**
   * Does all operations. If one doesn't fit, it throws a `ContentError` of code `operation`, and nothing has changed.
   * That is so where replies were lost, or one came twice that makes hosts.
   */
  apply(ops: readonly Operation[]): void;

  /**
   * Operations that draw the present view from nothing, with the same ids and keys. Hosts that were created and never
   * placed aren't drawn.
   */
  fold(): Operation[];

  /** The view as HTML, byte for byte what `{"show":"view"}` says: addresses and styles are as they were given. */
  html(): string;
}
