// Where a module may come from.
import assert from 'node:assert/strict';
import { createServer } from 'node:http';
import { dirname, join, relative } from 'node:path';
import test from 'node:test';
import { pathToFileURL } from 'node:url';
import { Core } from '../lexical.js';
import { moduleBytes, packedProgram } from './helper.mjs';

const folder = dirname(packedProgram());
const file = join(folder, 'lexical.wasm');

async function works(source) {
  const editor = (await Core.load(source)).open();
  assert.equal(editor.line({ update: [{ append: 'a' }] }).commit, 1);
}

test('a path, a URL of a file, bytes, and what is compiled', async () => {
  await works(file);
  await works(relative('.', file));
  await works(pathToFileURL(file));
  await works(pathToFileURL(file).href);
  await works(moduleBytes);
  await works(new Uint8Array(moduleBytes).buffer);
  await works(await WebAssembly.compile(moduleBytes));
  await works(new Response(moduleBytes));
  await works(new Response(moduleBytes, { headers: { 'content-type': 'application/wasm' } }));
  await works(`data:application/wasm;base64,${moduleBytes.toString('base64')}`);
});

test('the module beside the package', async () => {
  const { Lexical } = await import(pathToFileURL(join(folder, 'lexical.js')).href);
  const editor = await Lexical.open(undefined, { view: true });
  assert.match(editor.line({ update: [{ append: 'beside' }] }).view, /beside/);
});

test('a server', async () => {
  const server = createServer(({ url }, response) => {
    response.writeHead(url === '/none' ? 404 : 200, { 'content-type': url.replace('/', 'application/') });
    response.end(moduleBytes);
  });
  await new Promise(resolve => { server.listen(0, '127.0.0.1', resolve); });
  const site = `http://127.0.0.1:${server.address().port}`;
  try {
    await works(`${site}/wasm`);
    await works(new URL(`${site}/octet-stream`));
    await assert.rejects(works(`${site}/none`), /can't be fetched .*404/);
  } finally {
    server.closeAllConnections();
    server.close();
  }
});

test('what is no source, no file and no module of this package', async () => {
  for (const source of [null, 5, {}, { delay: 5 }]) await assert.rejects(works(source), TypeError);
  await assert.rejects(works(join(folder, 'nowhere.wasm')), { code: 'ENOENT' });
  await assert.rejects(works(Buffer.from('\0asm\u0001\0\0\0')), /no lx_take/);
  await assert.rejects(works(Buffer.from('no module')), WebAssembly.CompileError);
});
