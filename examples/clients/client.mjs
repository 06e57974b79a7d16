#!/usr/bin/env node
// Sends lines to `lexical`, and keeps a tree of hosts by the operations of its replies. Each line is answered before the
// next one is read: so write a line, and wait for one reply.
import { spawn } from 'node:child_process';
import { createInterface } from 'node:readline';
import { Hosts } from '../../web/hosts.js';

const [program = './lexical', ...words] = process.argv.slice(2);
const lexical = spawn(program, words, { stdio: ['pipe', 'pipe', 'inherit'] });
const replies = createInterface({ input: lexical.stdout })[Symbol.asyncIterator]();
const hosts = new Hosts();

async function send(line) {
  lexical.stdin.write(`${JSON.stringify(line)}\n`);
  const reply = JSON.parse((await replies.next()).value);
  if (reply.ops) hosts.apply(reply.ops);
  return reply;
}

function show({ tag, text, children }, indent = '') {
  console.log(indent + tag, JSON.stringify(text));
  for (const child of children) show(child, `${indent}  `);
}

await send({ update: [{ append: 'Hello' }, { select: { anchor: [2, 5, 'text'], focus: [2, 5, 'text'] } }] });
await send({ dispatch: 'insert-text', payload: ', world' });
console.log(JSON.stringify(await send({ dispatch: 'insert-paragraph' })));
show(hosts.root);
lexical.stdin.end();
