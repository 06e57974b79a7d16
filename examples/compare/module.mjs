// Answers a session by the WebAssembly module in node:
//   node module.mjs BEFORE LEXICAL.js LEXICAL.wasm < LINES > REPLIES
// BEFORE is the number of lines that aren't measured.
import { readFileSync } from 'node:fs';
import { pathToFileURL } from 'node:url';
import { answerStandardInput } from './standard.mjs';

const [before, client, module] = process.argv.slice(2);
const { Core } = await import(pathToFileURL(client));
const editor = (await Core.load(readFileSync(module))).open();
answerStandardInput(line => editor.bytes(line), Number(before));
