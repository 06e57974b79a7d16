// Answers sessions by the WebAssembly module in a page: asks the server for one after the other, and tells how it went.
import { linesOf, timed } from './session.mjs';

/** Answers a session by a new instance of what was compiled once: what it took, and how many bytes the replies have. */
async function run({ Core, module }, { where, before }) {
  const lines = linesOf(new Uint8Array(await (await fetch(where)).arrayBuffer()));
  const editor = (await Core.load(module)).open();
  const { milliseconds, replies } = timed(line => editor.bytes(line), lines, before);
  return { milliseconds, size: replies.reduce((size, reply) => size + reply.length + 1, 0) };
}

async function loaded() {
  const { Core } = await import(await (await fetch('client')).text());
  return { Core, module: await WebAssembly.compileStreaming(fetch('module')) };
}

function tell(told) {
  return fetch('told', { method: 'POST', body: JSON.stringify(told) });
}

try {
  const core = await loaded();
  for (;;) {
    const session = await (await fetch('session')).json(); // waits until there is one
    await tell(await run(core, session));
  }
} catch (error) {
  await tell({ error: String(error) });
}
