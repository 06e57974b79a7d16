// What is written over the package in TypeScript: it is compiled and not run.
import { Core, Lexical, LexicalError, type Document, type Line, type Operation } from '../lexical.js';

export async function session(document: Document, module: WebAssembly.Module): Promise<Document> {
  const core: Core = await Core.load(module);
  const editor: Lexical = core.open({ delay: 500, view: true });
  const lines: Line[] = [{ load: document }, { dispatch: 'sign', payload: 'us', tags: ['history-push'] }];
  for (const line of lines) {
    const reply = editor.line(line);
    if (reply.refused) throw new Error(causeOf(editor, line));
    if (reply.commit !== undefined) reply.ops.forEach(draw);
    else if (reply.idle) console.log(reply.handled);
  }
  const { state } = editor.line({ show: 'state' });
  if (!state) throw new Error('no state');
  editor.close();
  return state;
}

function causeOf(editor: Lexical, line: Line): string {
  const { refused } = editor.line(line);
  switch (refused?.cause) {
    case 'TooLarge': return `${refused.detail[0]} is at ${refused.detail[1].toFixed()}`;
    case 'SelectionLost': return typeof refused.detail === 'number' ? 'a cell' : `at ${refused.detail[0].toFixed()}`;
    case 'BadState': return refused.detail.slice(1);
    default: return refused?.cause ?? 'none';
  }
}

function draw(operation: Operation): string {
  switch (operation[0]) {
    case 'create': return `${operation[3]} ${Object.keys(operation[4]).length} ${operation[5]?.length}`;
    case 'place': return operation[3] === null ? 'last' : operation[3].toFixed();
    case 'drop': return operation[1].toFixed();
    case 'text': return operation[2].trim();
    case 'attr': return operation[3] ?? operation[2];
    case 'break': return operation[2] ? 'ended' : 'open';
  }
}

export async function opened(): Promise<string> {
  try {
    const editor = await Lexical.open();
    const { selection } = editor.line({ show: 'selection' });
    if (selection?.kind === 'range') return `${selection.anchor[2]} ${selection.format.toFixed()}`;
    return editor.text('{"show":"view"}') + editor.bytes(new Uint8Array(0)).length + editor.core.size.toFixed();
  } catch (error) {
    if (error instanceof LexicalError && error.code === 'memory') return error.message;
    throw error;
  }
}
