// The stored sessions of examples/, byte for byte, by the module and by the program over it; and how that program ends.
import assert from 'node:assert/strict';
import { spawn } from 'node:child_process';
import { openSync } from 'node:fs';
import { join } from 'node:path';
import test from 'node:test';
import { bounded } from './bounded.mjs';
import { examples, letters, linesOf, newCore, newFolder, packedProgram, runProgram, top } from './helper.mjs';

const program = packedProgram();
const hello = '{"update":[{"append":"Hello"}]}\n';
const LIMIT = 16_777_216; // bytes of an input

test('each session by the module, as text and as bytes', async () => {
  const core = await newCore();
  for (const { name, input, replies } of examples) {
    const [text, bytes] = [core.open(), core.open()];
    const lines = linesOf(input);
    assert.equal(lines.map(line => `${text.text(line.toString())}\n`).join(''), replies.toString(), name);
    assert.ok(Buffer.concat(lines.flatMap(line => [bytes.bytes(line), Buffer.from('\n')])).equals(replies), name);
    text.close();
    bytes.close();
  }
  assert.ok(examples.length > 10);
});

test('each session by the program', () => {
  for (const { name, input, replies } of examples) {
    const { status, stdout, stderr } = runProgram(program, [], input);
    assert.deepEqual([status, stderr], [0, ''], name);
    assert.ok(stdout.equals(replies), name);
  }
});

test('words that an editor takes', async () => {
  const { input } = examples.find(({ name }) => name === 'history');
  const core = await newCore();
  for (const [words, options] of [
    [['--view'], { view: true }],
    [['--delay', '0'], { delay: 0 }],
    [['--delay=86400000', '--view', '--'], { delay: 86400000, view: true }],
  ]) {
    const editor = core.open(options);
    const wanted = linesOf(input).map(line => `${editor.text(line.toString())}\n`).join('');
    assert.equal(runProgram(program, words, input).stdout.toString(), wanted, words.join(' '));
    editor.close();
  }
});

test('words that need the program, and words that are none', () => {
  for (const [words, said] of [
    [['--hub'], '--hub needs the program'],
    [['--outline', '--view'], '--outline needs the program'],
    [['--generate', '9', '--seed=0'], '--generate needs the program'],
    [['--hub', '--outline'], 'usage'],
    [['--generate', '9'], 'usage'],
    [['--view', '--view'], 'usage'],
    [['--delay', '86400001'], 'usage'],
    [['--delay', '-1'], 'usage'],
    [['--delay'], 'usage'],
    [['--view=true'], 'usage'],
    [['--', '--view'], 'usage'],
    [['--help'], 'usage'],
    [['x'], 'usage'],
    [[''], 'usage'],
  ]) {
    const { status, stdout, stderr } = runProgram(program, words, hello);
    assert.deepEqual([status, stdout.toString(), stderr], [2, '', `lexical: ${said}\n`], words.join(' '));
  }
});

test('a last line without its end, empty lines and lines that end with CRLF', () => {
  for (const [input, replies] of [
    ['', 0],
    ['{"show":"view"}', 1],
    ['\n{"show":"view"}', 2],
    ['{"show":"view"}\r\n{"show":"view"}\r\n', 2],
    ['{"show":"view"}\n\r', 2],
  ]) {
    const { status, stdout } = runProgram(program, [], input);
    assert.deepEqual([status, linesOf(stdout).length], [0, replies], JSON.stringify(input));
  }
  assert.match(runProgram(program, [], '{"show":"view"}\r\n').stdout.toString(), /^\{"view"/);
});

test('as many bytes of input as there may be, and one more', () => {
  const full = Buffer.alloc(LIMIT, ' ');
  full.write(hello, 0);
  const done = runProgram(program, [], full);
  assert.deepEqual([done.status, linesOf(done.stdout).length, done.stderr], [0, 2, '']);
  const tooLong = runProgram(program, [], Buffer.concat([full, Buffer.from('\n')]));
  assert.deepEqual([tooLong.status, tooLong.stderr], [6, 'lexical: input too long\n']);
  assert.equal(linesOf(tooLong.stdout).length, 1);
});

test('reads and writes that fail', { skip: process.platform !== 'linux' && 'no /dev/full' }, () => {
  const full = openSync('/dev/full', 'w');
  const { status, stderr } = runProgram(program, [], hello, ['pipe', full, 'pipe']);
  assert.deepEqual([status, stderr], [4, 'lexical: write fault\n']);
  for (const [path, flags] of [[join(newFolder(), 'unreadable'), 'w'], [top, 'r']]) {
    const read = runProgram(program, [], undefined, [openSync(path, flags), 'pipe', 'pipe']);
    assert.deepEqual([read.status, read.stdout.toString(), read.stderr], [3, '', 'lexical: read fault\n'], path);
  }
});

test('memory that is wanting', () => {
  const input = `${hello}${JSON.stringify({ update: [{ append: letters(1_000_000) }] })}\n${hello}`;
  const { status, stdout, stderr } = runProgram(packedProgram(bounded(64)), [], input);
  assert.deepEqual([status, linesOf(stdout).length, stderr], [5, 1, 'lexical: memory\n']);
});

test('a reader that goes away', async () => {
  const child = spawn(process.execPath, [program], { stdio: ['pipe', 'pipe', 'pipe'] });
  let said = '';
  child.stderr.on('data', piece => { said += piece; });
  child.stdin.on('error', () => {}); // the program may end before it has read all
  child.stdout.once('data', () => child.stdout.destroy());
  child.stdin.end(hello.repeat(100_000));
  const status = await new Promise(resolve => { child.on('close', resolve); });
  assert.deepEqual([status, said], [4, 'lexical: write fault\n']);
});

test('the client of examples/, which waits for each reply', () => {
  const { status, stdout } = runProgram(join(top, 'examples', 'clients', 'client.mjs'), [process.execPath, program]);
  assert.equal(status, 0);
  assert.match(stdout.toString(), /\{"commit":3,.*\ndiv null\n  p null\n    span "Hello, world"\n  p null\n$/);
});

test('each reply comes before the next line is sent, also of a line in small pieces', async () => {
  const child = spawn(process.execPath, [program], { stdio: ['pipe', 'pipe', 'inherit'] });
  const replies = child.stdout[Symbol.asyncIterator]();
  for (let commit = 1; commit <= 3; commit += 1) {
    for (const piece of hello.match(/.{1,7}|\n/g)) {
      child.stdin.write(piece);
      await new Promise(resolve => { setImmediate(resolve); });
    }
    assert.match(String((await replies.next()).value), new RegExp(`^\\{"commit":${commit},.*\n$`));
  }
  child.stdin.end();
});
