import type { Lexical } from './lexical.js';
import type { Line, Selection } from './lines.js';
import type { Refusal, Reply } from './replies.js';

/** What brings lines to an editor, such as a request to a server, and its replies back: one for each line, in order. */
export interface Carrier {
  /** Where it fails halfway, its error may have the `replies` that it has got: they are passed on before it. */
  send(lines: readonly Line[]): readonly Reply[] | Promise<readonly Reply[]>;
}

export interface SessionOptions {
  /** The time in milliseconds: `Date.now` if left out. */
  now?: () => number;
  /** Gets each reply in order, with the line as it was sent, also of lines that the session adds. */
  onReply?: (reply: Reply, line: Line) => void;
}

/**
 * What a person does, one act after another.
 *
 *     let selection = null;
 *     const session = new Session(carrierOf(editor), { onReply(reply) {
 *       if (reply.ops) view.apply(reply.ops);
 *       if (reply.selection !== undefined) selection = reply.selection;
 *     } });
 *     await session.do({ dispatch: 'insert-text', payload: 'a' }, selectionIn(view, getSelection()));
 *     if (!session.isBusy) show(view, selection);
 */
export class Session {
  constructor(carrier: Carrier, options?: SessionOptions);

  /**
   * Sends the lines of an act after those of all earlier acts, and answers their replies. Each line without a moment
   * gets that of the call, and no such moment is before an earlier one. After lines that may have changed what is
   * selected, the core is asked for it: `onReply` gets the answer.
   *
   * What is selected, if it is given, is sent first where it differs from what the core has. While acts wait, the page
   * may still show what was selected before them: that isn't sent again. If a selection is refused, the lines aren't
   * sent, since they were meant for another place; each is answered with that refusal.
   *
   * A refused line stops no other. An error of the carrier rejects the act, and later acts are sent all the same. After
   * an error with the code `closed`, `broken` or `spent` all acts are rejected with it. An error that `onReply` throws
   * rejects the act too, once all replies that came with that one have been passed on.
   */
  do(lines: Line | readonly Line[], selected?: Selection | null): Promise<Reply[]>;

  /**
   * Says that somebody else may have selected something else in the core, where several edit one document. What is
   * selected, if it is given, is sent with the next act in any case.
   */
  forget(): void;

  /** Waits until no act does. */
  idle(): Promise<void>;

  /** Whether an act waits or is under way. */
  get isBusy(): boolean;
}

/** An editor as a carrier. */
export function carrierOf(editor: Lexical): Carrier;

/** Why a line was refused, as a sentence for a reader. */
export function explain(refusal: Refusal): string;
