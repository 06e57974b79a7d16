// The worked rows that need no more than the module, byte for byte.
import assert from 'node:assert/strict';
import test from 'node:test';
import { optionsOf } from '../words.js';
import { linesOf, newCore } from './helper.mjs';
import { asStored, storedSessions } from './rows.mjs';

test('the worked rows', async () => {
  const core = await newCore();
  let run = 0, leftOut = 0;
  for (const session of storedSessions()) {
    const options = optionsOf(session.words);
    if (options && 'needs' in options) {
      leftOut += 1;
      continue;
    }
    assert.equal(options ? repliesTo(core, options, session) : '*** lexical: usage\n', session.replies, session.name);
    run += 1;
  }
  assert.ok(run > 280, `${run} sessions were run`);
  assert.ok(leftOut < 25, `${leftOut} sessions were left out`);
});

function repliesTo(core, options, { input, tellsLast }) {
  const editor = core.open(options);
  const replies = linesOf(Buffer.from(input, 'latin1')).map(line => Buffer.from(editor.bytes(line)).toString('latin1'));
  editor.close();
  return asStored(replies, tellsLast);
}
