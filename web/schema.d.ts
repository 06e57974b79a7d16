import type { Line } from './lines.js';

/**
 * What is wrong at one place of a line. The path is a JSON pointer, such as `/update/0/select/anchor/1`, which is empty
 * for the line itself. The message says what is asked for there: `a whole number from 0 is asked for`.
 */
export interface Problem {
  readonly path: string;
  readonly message: string;
}

export interface SchemaOptions {
  /** Whether lines about views and outlines (`hub`, `ask`) fit too, which only the program takes. By default not. */
  layers?: boolean;
}

/**
 * What is wrong with a line, the most helpful first: `[]` if it fits. Of several forms that a line, a step or a rule
 * may have, the problems are those of the form that its members name.
 *
 * It is about the JSON that `JSON.stringify` writes of the line. So a member that is undefined isn't there. What JSON
 * has no value for is the only problem then, even where something else would be written: NaN, undefined in a list, a
 * function, a Map, or a Date, which has a toJSON.
 *
 * A line that fits is never refused as `BadLine`, nor as `BadCommand` for its form, and any other always is. But this
 * can't say:
 * - that `1.0`, `1e3` and `-0` are no whole numbers in JSON from elsewhere: `JSON.parse` makes 1, 1000 and 0 of them;
 * - that of equal members of an object the last one counts: `JSON.parse` drops the others;
 * - that a line has at most 16,777,216 bytes;
 * - what payloads built-in commands take, which may be known only as a line runs: listeners may handle the command, or
 *   give it theirs. Any other payload than these is refused as `BadCommand` when the command is reached:
 *   - `insert-text`: a string;
 *   - `delete-character`, `delete-word`: `back` or `forward`;
 *   - `format-text`: `bold`, `italic`, `strikethrough`, `underline`, `code`, `subscript`, `superscript` or `highlight`;
 *   - `paste`: a string that is the JSON of a slice, an object with a list `nodes`;
 *   - `make-list`: `bullet`, `number` or `check`;
 *   - `insert-table`: `[rows, columns, headers]`;
 *   - `insert-row`, `insert-column`: `before` or `after`;
 *   - `undo`, `redo`, `remove-text`, `insert-paragraph`, `insert-line-break`, `insert-tab`, `select-all`, `cut`,
 *     `remove-list`, `indent`, `outdent`, `toggle-checked`, `delete-row`, `delete-column`, `merge-cells`, `unmerge`:
 *     none, or null.
 */
export function problemsOf(line: unknown, options?: SchemaOptions): Problem[];

/** Throws a TypeError with the path and the message of the first problem of a line that has any. */
export function assertLine(line: unknown, options?: { layers?: false }): asserts line is Line;
export function assertLine(line: unknown, options: SchemaOptions): void;
