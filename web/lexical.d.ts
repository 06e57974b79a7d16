import type { Line } from './lines.js';
import type { Reply } from './replies.js';

export * from './lines.js';
export * from './replies.js';

/** A URL of the module, or in node a path to it; a response with it, its bytes, or what was compiled of it. */
export type Source = string | URL | Response | BufferSource | WebAssembly.Module;

export interface Options {
  /** Typing that goes on within so many milliseconds is one entry of the history: 1000 if left out. */
  delay?: number;
  /** Whether replies to commits include the view, as HTML. */
  view?: boolean;
}

/**
 * - `closed`: the editor was closed.
 * - `spent`: it has made 4,294,967,295 commits, and answers no line any more.
 * - `memory`: there is none for that. The editor is as it was, but for updates that waited.
 * - `broken`: the module has stopped in this call or an earlier one, and all its editors are lost.
 * - `line`: what was given is no line; the message says why.
 * - `long`: the line has more than 16,777,216 bytes. Nothing was done.
 */
export type ErrorCode = 'closed' | 'spent' | 'memory' | 'broken' | 'line' | 'long';

/** Why the core could not answer. A refused line is no error: its reply tells the cause. */
export class LexicalError extends Error {
  constructor(code: ErrorCode, message: string, cause?: unknown);
  readonly code: ErrorCode;
  readonly cause?: unknown;
}

/** One instance of the module, with a memory of its own. Its editors share that memory and nothing else. */
export class Core {
  constructor(instance: WebAssembly.Instance);

  /** Compiles the module, by default the one beside this file, and makes an instance of it. */
  static load(source?: Source): Promise<Core>;

  /** A new editor. */
  open(options?: Options): Lexical;

  /** How many bytes the memory has. It grows as it has to, and never shrinks. */
  get size(): number;
}

/** An editor, which `Lexical.open()` or `core.open()` makes. */
export class Lexical {
  private constructor();

  /** An editor in a module of its own. */
  static open(source?: Source, options?: Options): Promise<Lexical>;

  /** What holds the editor, for another one beside it: `editor.core.open()`. */
  get core(): Core;

  /** Answers a line, as an object, with the reply as an object. */
  line(line: Line): Reply;

  /**
   * Answers the JSON of a line, without a line end, with that of the reply. Half a surrogate pair in the string itself
   * becomes U+FFFD; one that JSON escapes, as `line` has it, is refused as `BadLine`.
   */
  text(line: string): string;

  /** The same with bytes. A line that isn't UTF-8 is refused as `BadLine`. */
  bytes(line: Uint8Array): Uint8Array;

  /** Drops the editor, and gives its memory to the others. Does nothing if it is closed, or the module has stopped. */
  close(): void;
}
