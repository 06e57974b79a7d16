// What a person does, over carriers that are slow, stop or lose replies, and over the core.
import assert from 'node:assert/strict';
import test from 'node:test';
import { setTimeout as wait } from 'node:timers/promises';
import { ContentError } from '../content-error.js';
import { LexicalError } from '../lexical.js';
import { Session, carrierOf, explain } from '../session.js';
import { newCore } from './helper.mjs';

const core = await newCore();
const typed = payload => ({ dispatch: 'insert-text', payload });
const caret = (key, offset) => ({ anchor: [key, offset, 'text'], focus: [key, offset, 'text'] });

/** A session over an editor with the text "Hello", which is node 2, and all lines that were sent. */
function opened(options, carrierFor = carrierOf) {
  const editor = core.open(), sent = [];
  editor.line({ update: [{ append: 'Hello' }, { select: caret(2, 5) }] });
  const carrier = carrierFor(editor);
  const session = new Session({ send(lines) {
    sent.push(...lines);
    return carrier.send(lines);
  } }, options);
  return { editor, session, sent };
}

/** What a line is about, in a word. */
const wordOf = ({ dispatch, payload, show, update }) =>
  dispatch ? payload ?? dispatch : show ?? (update[0]?.select ? 'select' : 'update');

const textOf = editor => editor.line({ show: 'state' }).state.root.children[0].children[0].text;

test('an act is its lines, each with its moment, and then what is selected', async () => {
  const seen = [];
  const { editor, session, sent } = opened({ now: () => 1234.9, onReply: (reply, line) => seen.push([reply, line]) });
  const replies = await session.do([typed('a'), { at: 2000, update: [] }, { show: 'history' }]);
  const at = 2000;
  const others = [{ update: [] }, { show: 'history' }, { show: 'selection' }];
  assert.deepEqual(sent, [{ ...typed('a'), at: 1234 }, ...others.map(line => ({ ...line, at }))]);
  assert.deepEqual(seen.map(([, line]) => line), sent);
  assert.deepEqual(replies, seen.slice(0, 3).map(([reply]) => reply));
  assert.equal(seen[3][0].selection.anchor[1], 6);
  assert.deepEqual(await session.do({ show: 'view' }), [editor.line({ show: 'view' })]);
  assert.equal(sent.length, 5, 'after questions it is not asked');
  assert.deepEqual(await session.do([]), []);
});

test('what is selected is sent where it differs from what the core has', async () => {
  const { editor, session, sent } = opened();
  await session.do(typed('a'), caret(2, 0)); // what the core has isn't known yet
  await session.do(typed('b'), caret(2, 1)); // it has that
  await session.do(typed('c'), caret(2, 4));
  await session.do(typed('d'));
  await session.do([], caret(2, 0));
  await session.do(typed('e'), { ...caret(2, 0), format: 1 });
  const words = 'select a selection b selection select c selection d selection select selection select e selection';
  assert.equal(sent.map(wordOf).join(' '), words);
  assert.equal(textOf(editor), 'e');
  assert.equal(editor.line({ show: 'state' }).state.root.children[0].children[1].text, 'abHecdllo');
});

test('after another has selected something, what comes with an act is sent in any case', async () => {
  const { session, sent } = opened();
  await session.do(typed('a'), caret(2, 0));
  session.forget();
  await session.do(typed('b'), caret(2, 1));
  assert.equal(sent.map(wordOf).join(' '), 'select a selection select b selection');
});

test('the selection of a page that lags behind is not selected again', async () => {
  const { editor, session } = opened();
  await session.do(typed('a'), caret(2, 0));
  await Promise.all([...'bcd'].map(letter => session.do(typed(letter), caret(2, 1))));
  assert.equal(textOf(editor), 'abcdHello');
  await Promise.all([
    session.do(typed('e'), caret(2, 4)), session.do(typed('f'), caret(2, 0)), session.do(typed('g'), caret(2, 0)),
  ]);
  assert.equal(textOf(editor), 'fgabcdeHello');
});

test('lines are not sent to another place than was meant', async () => {
  const { editor, session, sent } = opened();
  const replies = await session.do([typed('a'), typed('b')], caret(9, 0));
  assert.deepEqual(replies.map(({ refused }) => refused.cause), ['UnknownNode', 'UnknownNode']);
  assert.deepEqual(sent.map(wordOf), ['select', 'selection']);
  await session.do(typed('c'));
  assert.equal(textOf(editor), 'Helloc');
});

test('a thousand acts over a slow carrier arrive in order, and their moments never fall', async () => {
  let number = 7, out = 0, most = 0;
  const draw = bound => (number = (Math.imul(number, 1664525) + 1013904223) >>> 0) % bound;
  const { editor, session, sent } = opened({ now: () => 5000 + draw(100) }, editor => ({ async send(lines) {
    most = Math.max(most, ++out);
    if (draw(20) === 0) await wait(draw(3));
    const replies = carrierOf(editor).send(lines);
    if (draw(20) === 0) await wait(draw(3));
    out -= 1;
    return replies;
  } }));
  const letters = Array.from({ length: 1000 }, (_, index) => String.fromCharCode(97 + index % 26));
  const acts = [];
  for (const letter of letters) {
    acts.push(session.do(typed(letter)));
    if (draw(20) === 0) await wait(1);
  }
  assert.ok(session.isBusy);
  await session.idle();
  assert.ok(!session.isBusy);
  assert.ok((await Promise.all(acts)).every(([reply]) => reply.commit));
  assert.equal(textOf(editor), `Hello${letters.join('')}`);
  assert.equal(most, 1);
  sent.reduce((last, { at }) => (assert.ok(at >= last), at), 0);
});

test('a refused line stops neither its act nor the next ones', async () => {
  const { editor, session } = opened();
  const acts = [[{ update: [{ remove: 99 }] }, typed('a')], [typed('b')]].map(lines => session.do(lines));
  const [[refused, first], [second]] = await Promise.all(acts);
  assert.deepEqual([refused.refused.cause, first.commit > 0, second.commit > 0], ['UnknownNode', true, true]);
  assert.equal(textOf(editor), 'Helloab');
});

test('an error of the carrier rejects its act, and what was answered before is passed on', async () => {
  const seen = [];
  const { editor, session, sent } = opened({ onReply: (reply, line) => seen.push([wordOf(line), reply]) });
  const circle = { dispatch: 'x' };
  circle.payload = circle;
  const acts = [session.do([typed('a'), circle]), session.do(typed('b'), caret(2, 5))];
  await assert.rejects(acts[0], { code: 'line' });
  await acts[1];
  assert.deepEqual(seen.map(([word, reply]) => [word, Boolean(reply.commit)]),
    [['a', true], ['select', true], ['b', true], ['selection', false]]);
  assert.equal(textOf(editor), 'Helloba');
  assert.equal(sent.filter(line => wordOf(line) === 'selection').length, 2);
});

test('after an error that lasts all acts are rejected with it', async () => {
  for (const code of ['closed', 'broken', 'spent']) {
    let calls = 0;
    const error = new LexicalError(code, 'no more');
    const session = new Session({ send() {
      calls += 1;
      throw error;
    } });
    const acts = [1, 2, 3].map(() => session.do(typed('a')));
    for (const act of acts) await assert.rejects(act, value => value === error);
    await assert.rejects(session.do([{ show: 'view' }]), value => value === error);
    await session.idle();
    assert.equal(calls, 1);
  }
  const { editor, session } = opened();
  editor.close();
  await assert.rejects(session.do(typed('a')), { code: 'closed' });
});

test('an error that onReply throws rejects the act, once all replies are passed on', async () => {
  let calls = 0;
  const { session } = opened({ onReply: () => {
    calls += 1;
    throw new Error(`call ${calls}`);
  } });
  await assert.rejects(session.do([typed('a'), typed('b')]), /call 1/);
  assert.equal(calls, 3);
});

test('an act may be done while a reply is passed on', async () => {
  let more = 2;
  const { editor, session } = opened({ onReply: ({ commit }) => {
    if (commit && more-- > 0) session.do(typed('+'));
  } });
  await session.do(typed('a'));
  assert.ok(session.isBusy);
  await session.idle();
  assert.equal(textOf(editor), 'Helloa++');
});

test('replies that are not one for each line are an error', async () => {
  for (const replies of [[], [{ idle: true }], [null, null], null, 'ab', { length: 2 }]) {
    const session = new Session({ send: () => replies });
    await assert.rejects(session.do(typed('a')), error => error instanceof ContentError && error.code === 'operation');
  }
});

test("a caller's mistake is named, and nothing is sent", async () => {
  const { session, sent } = opened();
  for (const carrier of [undefined, null, {}, { send: 1 }]) assert.throws(() => new Session(carrier), TypeError);
  assert.throws(() => new Session({ send() {} }, { now: 5 }), TypeError);
  assert.throws(() => new Session({ send() {} }, { onReply: 'no' }), TypeError);
  assert.throws(() => carrierOf({}), TypeError);
  for (const lines of [null, undefined, 'line', [null], [[]], [typed('a'), 1]]) {
    await assert.rejects(session.do(lines), TypeError);
  }
  await assert.rejects(session.do([], 'word'), TypeError);
  await assert.rejects(new Session({ send() {} }, { now: () => NaN }).do([]), TypeError);
  assert.deepEqual([sent, session.isBusy], [[], false]);
});

test('every cause has a sentence of its own kind', () => {
  const details = {
    BadLine: [null], BadCommand: [null], UnknownNode: [99, 'name'], WrongKind: ['list'], BadPlace: [1001],
    NoSelection: ['none', 'range', 'nodes', 'cells'], SelectionLost: [[2, 0, 'text'], 7], NoRest: [101],
    StepLimit: [100001], DispatchDepth: [65],
    TooLarge: ['depth', 'nodes', 'characters', 'key', 'hosts', 'written'].map(limit => [limit, 1]),
    UnknownType: ['note'], BadState: ['/root'], EmptyState: [null], HistoryInside: [null], TooManyRules: [256],
  };
  assert.equal(Object.keys(details).length, 16);
  for (const [cause, each] of Object.entries(details)) {
    for (const detail of each) {
      const sentence = explain({ cause, code: 1, detail, step: null });
      assert.match(sentence, /^[A-Z][a-z' .A-Z]+\.$/);
      assert.notEqual(sentence, "This can't be done.", cause);
    }
  }
  for (const refusal of [{ cause: 'NewCause' }, { cause: 'toString' }, { cause: 'TooLarge', detail: null }, {}]) {
    assert.equal(explain(refusal), "This can't be done.");
  }
  assert.throws(() => explain(null), TypeError);
});
