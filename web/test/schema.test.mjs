// Lines that fit are those that the core takes.
import assert from 'node:assert/strict';
import { readFileSync } from 'node:fs';
import { join } from 'node:path';
import test from 'node:test';
import { dataText } from '../build/schema.mjs';
import { problemsOf } from '../schema.js';
import { examples, linesOf, newCore, web } from './helper.mjs';
import { changed, randomLine, seeded } from './random-lines.mjs';
import { storedSessions } from './rows.mjs';
import { fittingLines, misfittingLines, schema } from './schema.mjs';

const LONGEST = 20_000; // bytes of a stored line: longer ones would show nothing new
const core = await newCore();

/** An editor with a text in which some is selected. */
function opened() {
  const editor = core.open();
  editor.line({ update: [{ append: 'Hi' }, { select: { anchor: [2, 0, 'text'], focus: [2, 1, 'text'] } }] });
  return editor;
}

let editor = opened();

/** The refusal with which an editor as it was opened answers a line; null if it takes it. */
function refusalOf(json) {
  const reply = JSON.parse(editor.text(json));
  if (['commit', 'registered', 'gathered'].some(name => name in reply)) {
    editor.close();
    editor = opened();
  }
  return reply.refused ?? null;
}

const words = list => payload => list.split(' ').includes(payload);
const isText = payload => typeof payload === 'string';
const isNothing = payload => payload === null;
const sides = words('before after'), ways = words('back forward');

/** Which payloads each built-in command takes, but that none is null. schema.d.ts has the same list. */
const takes = {
  'insert-text': isText,
  'delete-character': ways,
  'delete-word': ways,
  'format-text': words('bold italic strikethrough underline code subscript superscript highlight'),
  paste: payload => isText(payload) && isSlice(payload),
  'make-list': words('bullet number check'),
  'insert-table': payload => Array.isArray(payload),
  'insert-row': sides,
  'insert-column': sides,
};
const plain = [
  'undo', 'redo', 'remove-text', 'insert-paragraph', 'insert-line-break', 'insert-tab', 'select-all', 'cut',
  'remove-list', 'indent', 'outdent', 'toggle-checked', 'delete-row', 'delete-column', 'merge-cells', 'unmerge',
];
for (const name of plain) takes[name] = isNothing;

function isSlice(text) {
  try {
    return Array.isArray(JSON.parse(text)?.nodes);
  } catch {
    return false;
  }
}

/** Whether a line that fits has a built-in command with a payload that this doesn't take, at any depth. */
function hasOtherPayload({ update, later = update, dispatch, do: name = dispatch, payload = null }) {
  if (later) return later.some(hasOtherPayload);
  return name !== undefined && Object.hasOwn(takes, name) && !takes[name](payload);
}

/** What is known of a line and its answer if they part; undefined if they agree. */
function parting(json) {
  const line = JSON.parse(json);
  const problems = problemsOf(line), refusal = refusalOf(json);
  const isRefused = ['BadLine', 'BadCommand'].includes(refusal?.cause);
  const agrees = problems.length > 0
    ? isRefused && refusal.step === null && problems.every(({ path }) => leadsIn(line, path))
    : !isRefused || (refusal.cause === 'BadCommand' && hasOtherPayload(line));
  return agrees ? undefined : { json: json.slice(0, 500), problems, refusal };
}

/** Whether a path leads to a place in a value. */
function leadsIn(value, path) {
  const names = path.split('/').slice(1).map(name => name.replace(/~1/g, '/').replace(/~0/g, '~'));
  let inner = value;
  return names.every(name => {
    const isThere = typeof inner === 'object' && inner !== null && Object.hasOwn(inner, name);
    inner = isThere ? inner[name] : undefined;
    return isThere;
  });
}

/** The same line with a number above 1, which is at the end of its range, a little greater, or below 0. */
function withOtherNumbers(json) {
  const numbers = json.match(/(?<=[:[,])\d+(?=[\],}])/g) ?? [];
  const great = numbers.filter(number => Number(number) > 1);
  return great.flatMap(number => [Number(number) + 1, Number(number) * 1.0001, -1].map(other => {
    return json.replace(new RegExp(`(?<=[:[,])${number}(?=[\\],}])`), JSON.stringify(other));
  }));
}

const partings = lines => lines.map(parting).filter(Boolean).slice(0, 5);

test('the data is what is made of the schema', () => {
  assert.equal(readFileSync(join(web, 'schema-data.js'), 'utf8'), dataText());
});

test('lines that fit and lines that do not are so for the core', () => {
  const lines = [...fittingLines(), ...misfittingLines()];
  const beyond = [...new Set(fittingLines().flatMap(withOtherNumbers))];
  assert.deepEqual(partings([...lines, ...beyond]), []);
  const fit = lines.filter(json => problemsOf(JSON.parse(json)).length === 0).length;
  assert.ok(fit > 500 && lines.length - fit > 500, `${fit} of ${lines.length}`);
});

test('stored lines fit if the core takes them', () => {
  const inputs = [...examples, ...storedSessions()].flatMap(({ input }) => linesOf(Buffer.from(input, 'latin1')));
  const lines = new Set(inputs.filter(({ length }) => length <= LONGEST).flatMap(bytes => {
    try {
      return [JSON.stringify(JSON.parse(bytes.toString()))];
    } catch {
      return [];
    }
  }));
  assert.deepEqual(partings([...lines]), []);
  assert.ok(lines.size > 1000, `${lines.size} lines`);
});

test('20,000 random lines fit if the core takes them', () => {
  const random = seeded(1);
  const lines = Array.from({ length: 20_000 }, (_, index) => {
    const line = randomLine(random);
    return JSON.stringify(index % 3 === 0 ? line : changed(line, random));
  });
  assert.deepEqual(partings(lines), []);
  const fit = lines.filter(json => problemsOf(JSON.parse(json)).length === 0).length;
  assert.ok(fit > 7000 && fit < 11_000, `${fit} fit`);
});

test('payloads that the schema takes, and built-in commands refuse, are known', () => {
  const payloads = [
    null, '', 'a', 'back', 'forward', 'before', 'after', 'bullet', 'number', 'check', '{"nodes":[]}', '{"nodes":{}}',
    '[]', 'null', 'bold', 'italic', 'strikethrough', 'underline', 'code', 'subscript', 'superscript', 'highlight',
    'lowercase', [1, 1, true],
  ];
  const said = [], expected = [];
  for (const name of Object.keys(takes)) {
    for (const payload of payloads) {
      const lines = [{ dispatch: name, payload }, { update: [{ later: [{ do: name, payload }] }] }];
      for (const line of lines) {
        assert.deepEqual(problemsOf(line), []);
        if (refusalOf(JSON.stringify(line))?.cause === 'BadCommand') said.push(line);
        if (!takes[name](payload)) expected.push(line);
      }
    }
  }
  assert.deepEqual(said, expected);
  assert.deepEqual(Object.keys(takes).sort(), schema.$defs.built_in.enum.slice().sort());
});

test('rules add up to 256 code units', () => {
  const lineWith = add => JSON.stringify({ rule: { on: 'text', if: [{ text: 'zz' }], do: [{ add }] } });
  const counts = [128, 129, 256, 257];
  const lines = ['a', '\u00e9', '\u{1f600}'].flatMap(letter => counts.map(count => lineWith(letter.repeat(count))));
  assert.deepEqual(partings(lines), []);
  assert.deepEqual(lines.map(json => problemsOf(JSON.parse(json)).length), [0, 0, 0, 1, 0, 0, 0, 1, 0, 1, 1, 1]);
});

test('lines nest as deep as the core takes them', () => {
  const lines = [125, 126, 127, 128].map(count => `{"load":${'['.repeat(count)}${']'.repeat(count)}}`);
  assert.deepEqual(partings(lines), []);
  assert.deepEqual(lines.map(json => problemsOf(JSON.parse(json)).length), [0, 0, 1, 1]);
});
