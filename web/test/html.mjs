// What the tests of HTML share: whether parse5 is there, an editor that pastes, and texts.
import { createRequire } from 'node:module';
import { htmlFromDocument, sliceFromHtml } from '../html.js';
import { newCore } from './helper.mjs';

/** False, or why tests that parse are skipped. */
export const skip = (() => {
  try {
    createRequire(import.meta.url)('parse5');
    return false;
  } catch {
    return 'there is no parse5: Debian has it as node-parse5, in NODE_PATH=/usr/share/nodejs';
  }
})();

const editor = (await newCore()).open();

/** What is committed once a slice was pasted at a caret in an empty paragraph. Throws what the core refuses. */
export function pasted(slice) {
  const { ops } = editor.line({ load: { root: { children: [{ type: 'paragraph' }] } } });
  const [, , key] = ops.find(([name]) => name === 'create');
  editor.line({ update: [{ select: { anchor: [key, 0, 'element'], focus: [key, 0, 'element'] } }] });
  const reply = editor.line({ dispatch: 'paste', payload: JSON.stringify(slice) });
  if (reply.refused) throw new Error(`refused: ${JSON.stringify(reply.refused)}`);
  return editor.line({ show: 'state' }).state;
}

/** The texts of nodes, without white space. */
export function textOf(nodes) {
  return nodes.map(node => node.text ?? textOf(node.children ?? [])).join('').replace(/\s+/g, '');
}

const names = ['tag', 'listType', 'start', 'value', 'checked', 'url', 'rel', 'target', 'title', 'direction', 'format',
  'indent', 'headerState', 'colSpan', 'rowSpan', 'backgroundColor', 'src'];

/** Nodes in short: types, formats, and what else isn't as usual. */
export function short(nodes) {
  return nodes.map(node => {
    if (node.type === 'text') return `${node.format || ''}${JSON.stringify(node.text)}`;
    const usual = { direction: null, format: '', indent: 0, colSpan: 1, rowSpan: 1, headerState: 0, rel: null };
    const told = names.filter(name => node.type !== 'tab' && name in node && node[name] !== (usual[name] ?? null));
    const fields = told.map(name => `${name}=${node[name]}`).join(' ');
    return `${node.type}${fields && `{${fields}}`}${node.children ? `[${short(node.children)}]` : ''}`;
  }).join(' ');
}

/** A slice that was written and read again. */
export const again = async slice => sliceFromHtml(htmlFromDocument(slice));
