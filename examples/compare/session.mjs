// What each side in JavaScript does with the lines of a session, in node and in a page.

/** The lines of a session, without their ends. */
export function linesOf(bytes) {
  const lines = [];
  for (let at = 0; at < bytes.length;) {
    const end = bytes.indexOf(10, at);
    lines.push(bytes.subarray(at, end));
    at = end + 1;
  }
  return lines;
}

/** Answers lines one after the other: all replies, and the milliseconds of the lines behind the first `before`. */
export function timed(answer, lines, before) {
  const replies = lines.slice(0, before).map(answer), measured = lines.slice(before);
  const begun = performance.now();
  for (const line of measured) replies.push(answer(line));
  return { milliseconds: performance.now() - begun, replies };
}
