// The worked rows of the crate lx_rows: sessions with their replies. A line that begins with stars stands for another.
import { readFileSync } from 'node:fs';
import { join } from 'node:path';
import { top } from './helper.mjs';

const LONGEST = 4096; // bytes of a reply that is stored whole
const SHOWN = 60; // bytes of a longer one, which are stored with its length

/** The parts of a stored file, with their names. Not all bytes are UTF-8, so each is a character here. */
function partsOf(file) {
  const text = readFileSync(join(top, 'crates', 'lx_rows', file), 'latin1');
  return text.split(/(?<![^\n])=== /).slice(1).map(part => {
    const end = part.indexOf('\n');
    return { name: part.slice(0, end), body: part.slice(end + 1) };
  });
}

/** The sessions: `words`, `input` and `replies` of each, and whether the last reply alone is stored. */
export function storedSessions() {
  const replies = partsOf('stdout');
  return partsOf('stdin').map(({ name, body }, index) => {
    if (replies[index].name !== name) throw new Error(`no replies are stored for ${name}`);
    return { name, ...sessionFrom(body), replies: replies[index].body };
  });
}

function sessionFrom(body) {
  const lines = body.split('\n').slice(0, -1);
  const marked = word => lines.filter(line => line.startsWith(`*** ${word}`));
  return {
    words: marked('words ').flatMap(line => line.slice('*** words '.length).split(' ')),
    tellsLast: marked('last').length > 0,
    input: lines.filter(line => !/^\*\*\* (words|last)/.test(line)).map(sent).join(''),
  };
}

/** What is sent for a stored line, with its end. */
function sent(line) {
  if (!line.startsWith('*** ')) return `${line}\n`;
  const [, word, rest] = /^\*\*\* (\w+) (.*)$/s.exec(line);
  const [, count, what] = /^(\d*) ?(.*)$/s.exec(rest);
  return makers[word](Number(count), what, rest);
}

const load = children => `{"load":{"root":{"children":[${children}]}}}\n`;
const listOf = (count, text) => Array(count).fill(text).join(',');
const paragraph = '{"type":"paragraph"}';
const text = '{"type":"text","text":"one of many texts, "}';
const deeper = index => `{"type":"${index % 2 ? 'listitem' : 'list'}","children":[`;
const makers = {
  unended: (count, what, rest) => rest,
  times: (count, line) => `${line}\n`.repeat(count),
  steps: (count, step) => `{"update":[${listOf(count, step)}]}\n`,
  keys: count => Array.from({ length: count }, (_, index) => `${keyPress(index)}\n`).join(''),
  letters: count => `{"update":[{"append":"${'x'.repeat(count)}"}]}\n`,
  deep: count => load(Array.from({ length: count }, (_, index) => deeper(index)).join('') + ']}'.repeat(count)),
  wide: count => load(listOf(count, paragraph)),
  blocks: count => load(listOf(count, `{"type":"quote","children":[${listOf(99, paragraph)}]}`)),
  texts: count => load(`{"type":"paragraph","children":[${listOf(count, text)}]}`),
  long: count => load(`{"type":"paragraph","children":[{"type":"text","text":"${'x'.repeat(count)}"}]}`),
};

function keyPress(index) {
  if (index % 97 === 96) return '{"dispatch":"format-text","payload":"bold"}';
  if (index % 50 === 49) return '{"dispatch":"insert-paragraph"}';
  if (index % 11 === 10) return '{"dispatch":"delete-character","payload":"back"}';
  return `{"dispatch":"insert-text","payload":"${index % 5 === 4 ? ' ' : 'e'}"}`;
}

/** Replies as they are stored. */
export function asStored(replies, tellsLast) {
  const stored = reply => reply.length > LONGEST ? `${reply.slice(0, SHOWN)} .. ${reply.length}` : reply;
  return (tellsLast ? replies.slice(-1) : replies).map(reply => `${stored(reply)}\n`).join('');
}
