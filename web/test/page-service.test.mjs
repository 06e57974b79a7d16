// Lines of the page to the service, and what others do between them. The service is played here.
import assert from 'node:assert/strict';
import test from 'node:test';
import { setTimeout as wait } from 'node:timers/promises';
import { Hosts } from '../hosts.js';
import { Service, overtaken } from '../page/service.js';

const text = (key, content) => ['create', key, key, 'span', { 'data-lexical-text': 'true' }, content, false];
const drawn = { commit: 1, ops: [['create', 1, 1, 'p', {}, null, false], text(2, 'Hello'), ['place', 1, 2, null], ['place', 0, 1, null]] };
const caret = (key, offset) => ({ anchor: [key, offset, 'text'], focus: [key, offset, 'text'] });
const typed = { at: 5, dispatch: 'insert-text', payload: 'a' };
const shown = { at: 5, show: 'selection' };
const place = number => `${number}.${'0'.repeat(32)}`;
const linesOf = replies => replies.map(reply => JSON.stringify(reply)).join('\n');

/** A document of the service that has one entry, and a page that has drawn it. Each answer is what `answers` has next. */
async function opened() {
  const asked = [], answers = [], hosts = new Hosts(), others = [];
  let events;
  globalThis.fetch = async (url, { method = 'GET', body = '' } = {}) => {
    if (method === 'GET') return new Response('{}');
    const { seen, exact } = Object.fromEntries(new URL(url, 'http://here').searchParams);
    asked.push({ seen, exact, lines: body.trim().split('\n').map(line => JSON.parse(line)) });
    return answers.shift()();
  };
  globalThis.EventSource = class extends EventTarget {
    constructor() {
      super();
      events = this;
    }
  };
  const tell = (name, number, replies) => {
    events.dispatchEvent(Object.assign(new Event(name), { lastEventId: place(number), data: linesOf(replies) }));
  };
  const service = new Service('/documents/plan', {
    onEntry: replies => replies.forEach(({ ops = [] }) => {
      service.moveAlong(hosts, ops);
      hosts.apply(ops);
      others.push(ops);
    }),
    onAnew: () => others.push('anew'),
  });
  const opening = service.open([]);
  await wait(1);
  tell('begin', 1, [drawn]);
  await opening;
  const done = (number, ...replies) => () => new Response(`${linesOf(replies)}\n`, { headers: { Entry: place(number) } });
  const select = selection => service.send([{ at: 5, update: [{ select: selection }] }]);
  return { service, asked, answers, others, tell, done, select };
}

const unseen = () => new Response('', { status: 409 });
const selected = { selection: { ...caret(2, 6), format: 0, kind: 'range' } };

test('what is selected goes with the lines, unless the core has it', async () => {
  const { service, asked, answers, done, select } = await opened();
  assert.deepEqual(await select(caret(2, 5)), [{ idle: true }]);
  const replies = [{ commit: 3, ops: [] }, selected];
  answers.push(done(2, { commit: 2, ops: [] }, ...replies), done(3, ...replies));
  assert.deepEqual(await service.send([typed, shown]), replies);
  await service.send([typed, shown]);
  assert.deepEqual(asked, [
    { seen: place(1), exact: '1', lines: [{ at: 5, update: [{ select: caret(2, 5) }] }, typed, shown] },
    { seen: place(2), exact: '1', lines: [typed, shown] }]);
});

test('where something came between, the points follow it, and the lines are sent again', async () => {
  const { service, asked, answers, tell, done, select } = await opened();
  await select(caret(2, 5));
  answers.push(unseen, done(3, { idle: true }, { commit: 3, ops: [] }));
  const sent = service.send([{ at: 5, update: [{ select: caret(2, 1) }, { dispatch: 'insert-text', payload: 'a' }] }]);
  await wait(5);
  tell('message', 2, [{ commit: 2, ops: [['text', 2, '!!Hello']] }]);
  await sent;
  assert.deepEqual(asked[1].lines[0].update[0].select, caret(2, 7));
  assert.deepEqual(asked[1].lines[1].update[0].select, caret(2, 3));
  assert.equal(asked[1].seen, place(2));
});

test('lines whose place has gone are refused, and not sent again', async () => {
  const { service, asked, answers, tell, select } = await opened();
  await select(caret(2, 3));
  answers.push(unseen);
  const sent = service.send([typed, shown]);
  await wait(5);
  tell('message', 2, [{ commit: 2, ops: [['text', 2, 'Ho']] }]);
  assert.deepEqual(await sent, [overtaken, overtaken]);
  assert.equal(asked.length, 1);
});

test('what comes as an event before its answer is drawn once', async () => {
  const { service, answers, others, tell, done, select } = await opened();
  await select(caret(2, 5));
  const reply = { commit: 3, ops: [['text', 2, 'Helloa']] };
  answers.push(() => {
    tell('message', 2, [{ commit: 2, ops: [] }, reply, selected]);
    return done(2, { commit: 2, ops: [] }, reply, selected)();
  });
  assert.deepEqual(await service.send([typed, shown]), [{ commit: 3 }, selected]);
  tell('message', 2, [reply]);
  assert.equal(others.length, 4, 'the beginning, and three replies');
});

test('a new epoch is told', async () => {
  const { others, tell } = await opened();
  tell('begin', 5, [drawn]);
  assert.equal(others.at(-1), 'anew');
});

test('without an answer it is asked again by the same name', async () => {
  const { service, asked, answers, done, select } = await opened();
  await select(caret(2, 5));
  answers.push(() => new Response('', { status: 504 }), done(2, { idle: true }, { idle: true }, selected));
  assert.equal((await service.send([typed, shown])).length, 2);
  assert.deepEqual(asked[0], asked[1]);
});
