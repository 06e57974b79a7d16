// The types, by TypeScript's compiler if it is there: what is taken and answered has them, and what is wrong hasn't.
import assert from 'node:assert/strict';
import { spawnSync } from 'node:child_process';
import { readdirSync, writeFileSync } from 'node:fs';
import { join } from 'node:path';
import test from 'node:test';
import { optionsOf } from '../words.js';
import { examples, linesOf, newCore, newFolder, web } from './helper.mjs';
import { storedSessions } from './rows.mjs';
import { fittingLines, misfittingLines } from './schema.mjs';

const LONGEST = 20_000; // bytes of a line or a reply: longer ones would show nothing new
const skip = spawnSync('tsc', ['--version']).status === 0 ? false : 'there is no tsc';
const words = '--strict --noEmit --target es2022 --module es2022 --moduleResolution node --lib es2022,dom'.split(' ');

/** What the compiler says of files: nothing, if all is right. */
function compilerSays(...files) {
  const { stdout } = spawnSync('tsc', [...words, ...files], { maxBuffer: 2 ** 30 });
  return stdout.toString().split('\n').filter(Boolean);
}

/** The same of one text: complaints, with the line that each is about, and the one behind. */
function compilerSaysOf(text) {
  const file = join(newFolder(), 'uses.ts');
  writeFileSync(file, text);
  const lines = text.split('\n');
  const about = said => Number(/\((\d+),/.exec(said)?.[1]);
  return compilerSays(file).map(said => [said, ...lines.slice(about(said) - 1, about(said) + 1)].join('\n'));
}

const head = `import type { Line, Reply } from '${web}lexical.js';\n`;
const wrongLine = (line, index) => `// @ts-expect-error\nexport const wrong${index}: Line = ${line};`;
const isRefusedForForm = reply => /^\{"refused":\{"cause":"Bad(Line|Command)",.*"step":null\}\}$/.test(reply);

/** A field that no type has is refused as WrongKind, so it is in the grammar, and in no type. */
const setsNoField = /"fields":\{"z":/;

/**
 * The lines that the core takes, and all replies: one of those that differ only in numbers, or letters typed. They are
 * written anew, since members may come twice in a line.
 */
async function linesAndReplies() {
  const core = await newCore();
  const lines = new Map(), replies = new Map();
  const add = (map, json) => {
    const shape = json.replace(/(?<![a-z])\d+/g, '0').replace(/[e ]{2,}/g, 'e');
    if (json.length <= LONGEST) map.set(shape, JSON.stringify(JSON.parse(json)));
  };
  const sessions = [...examples.map(({ input }) => ({ words: [], input })), ...storedSessions()];
  for (const { words, input } of sessions) {
    const taken = optionsOf(words);
    if (taken === null || 'needs' in taken) continue;
    const editor = core.open(taken);
    for (const bytes of linesOf(Buffer.from(input, 'latin1'))) {
      const reply = Buffer.from(editor.bytes(bytes)).toString();
      add(replies, reply);
      if (!isRefusedForForm(reply) && !setsNoField.test(bytes.toString())) add(lines, bytes.toString());
    }
    editor.close();
  }
  return { lines: [...lines.values()], replies: [...replies.values()] };
}

test('lines that are taken and replies have their types', { skip }, async () => {
  const { lines, replies } = await linesAndReplies();
  const typed = (type, values) => values.map((value, index) => `export const ${type}${index}: ${type} = ${value};`);
  assert.deepEqual(compilerSaysOf(head + [...typed('Line', lines), ...typed('Reply', replies)].join('\n')), []);
  assert.ok(lines.length > 500 && replies.length > 500, `${lines.length} lines, ${replies.length} replies`);
});

test('lines have types as the schema has them', { skip }, () => {
  const right = fittingLines().map((line, index) => `export const right${index}: Line = ${line};`);
  const wrong = misfittingLines().map(wrongLine);
  assert.deepEqual(compilerSaysOf(head + [...right, ...wrong].join('\n')), []);
  assert.ok(right.length > 500 && wrong.length > 500, `${right.length} right, ${wrong.length} wrong`);
});

test('wrong lines have no type', { skip }, () => {
  const wrong = [
    '{}',
    '{ show: "everything" }',
    '{ show: "state", update: [] }',
    '{ update: { append: "a" } }',
    '{ update: [], id: 7 }',
    '{ update: [{ insert: "a" }] }',
    '{ update: [{ append: 1 }] }',
    '{ update: [{ append: "a", as: "x" }] }',
    '{ update: [{ remove: 1, mark: 2 }] }',
    '{ update: [{ do: "sign" }] }',
    '{ update: [{ new: "root" }] }',
    '{ update: [{ new: "paragraph", as: null }] }',
    '{ update: [{ new: "paragraph", fields: { text: "a" } }] }',
    '{ update: [{ new: "text", fields: { format: "left" } }] }',
    '{ update: [{ new: "listitem", fields: { value: 3 } }] }',
    '{ update: [{ new: "linebreak", fields: { text: "a" } }] }',
    '{ update: [{ set: 1, fields: { bold: true } }] }',
    '{ update: [{ select: { anchor: [2, 0], focus: [2, 0] } }] }',
    '{ update: [{ select: { anchor: [2, 0, "text"], focus: [2, 0, "text"], kind: "range" } }] }',
    '{ update: [{ later: [{ append: 1 }] }] }',
    '{ dispatch: "insert-text", payload: 1 }',
    '{ dispatch: "undo", defer: true }',
    '{ flush: false }',
    '{ at: "now", show: "view" }',
    '{ clear: "all" }',
    '{ rule: { on: "text", if: [{ contains: "a", shorter: 3 }], do: [] } }',
    '{ rule: { on: "paragraph", if: [], do: [{ add: "!" }] } }',
    '{ rule: { on: "heading", if: [], do: [{ set: { tag: "h2" } }] } }',
    '{ rule: { on: "text", if: [], do: [{ replace: { type: "paragraph", fields: { tag: "h1" } } }] } }',
    '{ listener: { on: "sign", priority: 5, steps: [], handled: true } }',
    '{ listener: { on: "sign", priority: 0, steps: [] } }',
    '{ hub: "attach" }',
  ];
  assert.deepEqual(compilerSaysOf(head + wrong.map(wrongLine).join('\n')), []);
});

test('replies tell by their members what they are', { skip }, () => {
  assert.deepEqual(compilerSays(join(web, 'test', 'uses.ts')), []);
});

const modules = 'lexical.js cli.mjs hosts.js dom.js safe.js selection.js session.js schema.js html.js markdown.js'.split(' ');

test('the package has the types that it tells', { skip }, () => {
  const files = [join(web, 'test', 'node.d.ts'), ...modules.map(file => join(web, file))];
  assert.deepEqual(compilerSays('--allowJs', '--checkJs', ...files), []);
});

test('the page is typed', { skip }, () => {
  const scripts = readdirSync(join(web, 'page')).filter(file => file.endsWith('.js'));
  const declared = ['test/node.d.ts', 'test/page/browser.d.ts'], files = scripts.map(file => join('page', file));
  const lib = ['--lib', 'es2022,dom,dom.iterable'];
  const all = [...declared, ...files].map(file => join(web, file));
  assert.deepEqual(compilerSays('--allowJs', '--checkJs', ...lib, ...all), []);
  assert.ok(files.length > 40, `${files.length} scripts`);
});
