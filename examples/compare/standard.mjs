// A session from standard input, in node: its replies go to standard output, and the time to standard error, last.
import { readFileSync, writeSync } from 'node:fs';
import { linesOf, timed } from './session.mjs';

/** Answers the session by a function from the bytes of a line to the bytes or the text of its reply. */
export function answerStandardInput(answer, before) {
  const { milliseconds, replies } = timed(answer, linesOf(readFileSync(0)), before);
  const written = Buffer.concat(replies.flatMap(reply => [Buffer.from(reply), Buffer.from('\n')]));
  for (let at = 0; at < written.length;) at += writeSync(1, written, at);
  console.error(milliseconds);
}
