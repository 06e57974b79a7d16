// The module that is kept was made of the sources that are here: lexical.wasm.json has the checksums of both.
import assert from 'node:assert/strict';
import { createHash } from 'node:crypto';
import { readFileSync, readdirSync } from 'node:fs';
import { join } from 'node:path';
import test from 'node:test';
import { top, web } from './helper.mjs';

const origin = JSON.parse(readFileSync(join(web, 'lexical.wasm.json'), 'utf8'));
const sumOf = bytes => createHash('sha256').update(bytes).digest('hex');

/** The files below a folder, by their paths from its top. */
function filesBelow(folder, path) {
  return readdirSync(join(folder, path), { withFileTypes: true }).flatMap(entry => {
    const inside = `${path}/${entry.name}`;
    return entry.isDirectory() ? filesBelow(folder, inside) : [inside];
  });
}

/** The checksum of a crate's code, as web/build.sh tells it: that of the lines that `sha256sum` prints of its files in order. */
function sumOfCrate(name) {
  const folder = join(top, 'crates', name);
  return sumOf(filesBelow(folder, 'src').sort().map(file => `${sumOf(readFileSync(join(folder, file)))}  ${file}\n`).join(''));
}

test('the module is of the code that is here: otherwise web/build.sh has to make it anew', () => {
  for (const [name, sum] of Object.entries(origin.crates)) assert.equal(sumOfCrate(name), sum, `crates/${name} has changed`);
  for (const [file, sum] of Object.entries(origin['made by'])) assert.equal(sumOf(readFileSync(join(top, file))), sum, `${file} has changed`);
  assert.ok(Object.keys(origin.crates).length > 30);
});

test('the module is the one whose origin is told', () => {
  assert.equal(sumOf(readFileSync(join(web, 'lexical.wasm'))), origin['lexical.wasm']);
});
