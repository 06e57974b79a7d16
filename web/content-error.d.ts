/**
 * - `operation`: an operation doesn't fit the tree of hosts, as where replies were lost or came twice.
 * - `document`: what should be a document, a slice or a node isn't one.
 * - `depth`: it nests deeper than a document may.
 * - `size`: it is longer than a line may be, or has more nodes than a document may.
 * - `parser`: the parser that is needed isn't there.
 */
export type ContentErrorCode = 'operation' | 'document' | 'depth' | 'size' | 'parser';

/** Content that can't be taken. Nothing was changed. */
export class ContentError extends Error {
  constructor(code: ContentErrorCode, message: string, cause?: unknown);
  readonly code: ContentErrorCode;
  readonly cause?: unknown;
}
