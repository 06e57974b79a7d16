// What the tests of Markdown share: chance that is the same each time, documents by the core, and made texts.
import assert from 'node:assert/strict';
import { documentFromMarkdown, markdownFromDocument } from '../markdown.js';

/** Numbers below a bound, the same for the same seed. */
export function chance(seed) {
  let state = seed >>> 0;
  return bound => {
    state = (Math.imul(state, 1664525) + 1013904223) >>> 0;
    return Math.floor((state >>> 8) / 0x1000000 * bound);
  };
}

/** One of a list. */
export const oneOf = (random, list) => list[random(list.length)];

/** The document as the core has it once it is loaded. */
export function asLoaded(editor, document) {
  const reply = editor.line({ load: document });
  assert.equal(reply.refused, undefined, JSON.stringify(reply.refused));
  return editor.line({ show: 'state' }).state;
}

/** Reads a text, writes it and reads that: both documents are the same to the core. Answers the first reading. */
export async function goAround(editor, text) {
  const read = await documentFromMarkdown(text);
  const first = asLoaded(editor, read.document);
  const { markdown, lost } = markdownFromDocument(first);
  const again = await documentFromMarkdown(markdown);
  const shown = `${JSON.stringify(text)}\n became\n${JSON.stringify(markdown)}`;
  assert.equal(JSON.stringify(asLoaded(editor, again.document)), JSON.stringify(first), shown);
  assert.deepEqual(lost, [], shown);
  assert.equal(markdownFromDocument(first).markdown, markdownFromDocument(again.document).markdown, shown);
  return read;
}

/** All characters of a node's texts, without white space. */
export function letters(node) {
  const found = [];
  const open = [node];
  while (open.length > 0) {
    const { text, children } = open.pop();
    if (text) found.push(text);
    for (const child of [...children ?? []].reverse()) open.push(child);
  }
  return found.join('').replace(/\s/g, '');
}

const words = [
  'a', 'word', 'snake_case', '"quoted"', '1.', '2)', '-', '+', '*', '_', '#', '##', '>', '|', '\\', '`', '``', '~',
  '~~',
  '[', ']', '(', ')', '!', '<', '&', '&amp;', '&#35;', '&nbsp;', '=', '---', '===', ':-:', 'é', '😀', '€', '。', '\u00a0',
  '[x]', '[ ]', '![i](u)', '[l](u "t")', '<http://a.b>', '**b**', '*i*', '_i_', '~~s~~', '`c`', '***bi***', '\\*',
  'x:y',
  '<b>', '</b>', '\t', '  ', '\u2028', '\ufeff', '[a]: /b', '[a]', '**', '***', '__', '`` ` ``', '\\\n', '  \n', '\n',
];
const fronts = ['', '', '', '> ', '- ', '* ', '1. ', '3) ', '  ', '    ', '\t', '# ', '### ', '- [ ] ', '- [x] ',
  '```\n', '| '];

/** A text of pieces that mean something in Markdown, in any order. */
export function madeText(random) {
  const lines = Array.from({ length: 1 + random(8) }, () => {
    const front = Array.from({ length: random(3) }, () => oneOf(random, fronts)).join('');
    const pieces = Array.from({ length: random(8) }, () => oneOf(random, words) + oneOf(random, ['', '', ' ']));
    return front + pieces.join('');
  });
  if (random(5) === 0) lines.splice(random(lines.length), 0, '', '| a | b |', '| --- | :-: |', '| 1 | 2 |', '');
  return lines.join(oneOf(random, ['\n', '\n\n']));
}
