// As much of browsers as the page uses and the compiler's library may not know yet.
declare class DecompressionStream {
  constructor(format: 'gzip');
  readonly readable: ReadableStream<Uint8Array>;
  readonly writable: WritableStream<Uint8Array>;
}

declare class Highlight {
  constructor(...ranges: AbstractRange[]);
}

declare namespace CSS {
  const highlights: Map<string, Highlight> | undefined;
}

interface Element {
  role: string | null;
}

interface HTMLElement {
  popover: string | null;
  showPopover(): void;
  hidePopover(): void;
}

interface HTMLButtonElement {
  popoverTargetElement: Element | null;
}

interface Event {
  /** Of the events `beforetoggle` and `toggle`. */
  readonly newState?: 'open' | 'closed';
}

interface Document {
  caretPositionFromPoint?(x: number, y: number): { offsetNode: Node; offset: number } | null;
  adoptedStyleSheets: CSSStyleSheet[];
}

interface Array<T> {
  findLast(holds: (value: T, index: number) => unknown): T | undefined;
  findLastIndex(holds: (value: T, index: number) => unknown): number;
}
interface ReadonlyArray<T> {
  findLast(holds: (value: T, index: number) => unknown): T | undefined;
  findLastIndex(holds: (value: T, index: number) => unknown): number;
}

interface Window {
  /** The page, for a look from the console. */
  page: unknown;
}
