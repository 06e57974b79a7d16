import type { Document, Slice } from './replies.js';

export type { Document, Slice } from './replies.js';

/** A node of parsed HTML. */
export interface ParsedNode {
  /** An element's name in lower case, `#text`, `#comment`, or `#document` for the whole. */
  readonly name: string;
  readonly attributes: ReadonlyMap<string, string>;
  readonly children: readonly ParsedNode[];
  /** The text of a text or a comment; null for all others. */
  readonly text: string | null;
}

export interface ReadingOptions {
  /** Another parser than that of the page, or in node parse5. It must run no script. */
  parse?: (html: string) => ParsedNode;
}

export interface WritingOptions {
  /** What addresses may begin with: `http`, `https`, `mailto` and `tel` if left out. */
  schemes?: readonly string[];
  /** Which properties of a style are written: those of `safeStyle` if left out. */
  styles?: readonly string[];
}

/**
 * What HTML from elsewhere says, as a slice that `paste` takes. It is there at once where the parser is: in a page, or
 * where one is given. Throws a `ContentError` of code `size`, `depth` or `parser`, or rejects with it.
 */
export function sliceFromHtml(html: string, options?: ReadingOptions): Promise<Slice> | Slice;

/**
 * A document or a slice as HTML for files and for the clipboard, without scripts, and addresses and styles that aren't
 * safe. Throws a `ContentError` of code `document` or `depth` for what is none.
 */
export function htmlFromDocument(document: Document | Slice, options?: WritingOptions): string;
