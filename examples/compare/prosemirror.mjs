// Answers a session by ProseMirror's model, transform and state in node, where the lines have a counterpart there:
//   NODE_PATH=/usr/share/nodejs node prosemirror.mjs BEFORE < LINES > REPLIES
// BEFORE is the number of lines that aren't measured. Each line is a transaction, and its reply has the transaction's
// steps, as JSON. The status is 3 if a line has no counterpart.
import { createRequire } from 'node:module';
import { answerStandardInput } from './standard.mjs';

const require = createRequire(import.meta.url); // unlike `import`, it looks where NODE_PATH says
const { Schema } = require('prosemirror-model');
const { EditorState, TextSelection } = require('prosemirror-state');

const NO_COUNTERPART = 3;
const MOST_ENTRIES = 500; // of the history, as in the core

const schema = new Schema({
  nodes: {
    doc: { content: 'block*' },
    paragraph: { group: 'block', content: 'inline*' },
    quote: { group: 'block', content: 'block+' },
    text: { group: 'inline' },
  },
});

let state = EditorState.create({ schema, doc: schema.node('doc') });
let commits = 0, undoEntries = [], redoEntries = [];

function noCounterpart(what) {
  console.error(`ProseMirror has no counterpart here: ${JSON.stringify(what)}`);
  process.exit(NO_COUNTERPART);
}

/** Where a node begins, by its key: its number in document order, where the document was loaded and has kept its nodes. */
function positionOf(key) {
  let count = 0, found = -1;
  state.doc.descendants((node, position) => {
    if (found >= 0) return false;
    count += 1;
    if (count === key) found = position;
  });
  return found;
}

/** Applies a transaction, keeps the steps that invert it as an entry, and answers its steps. */
function commit(transaction, entries) {
  state = state.apply(transaction);
  entries.push(transaction.steps.map((step, index) => step.invert(transaction.docs[index])).reverse());
  if (entries.length > MOST_ENTRIES) entries.shift();
  commits += 1;
  return { commit: commits, handled: true, ops: transaction.steps.map(step => step.toJSON()) };
}

function edit(transaction) {
  redoEntries = [];
  return commit(transaction, undoEntries);
}

/** Undoes or redoes: applies the last of some entries, and keeps what inverts that among others. */
function turnBack(from, to) {
  const steps = from.pop();
  if (!steps) return { idle: true };
  const transaction = state.tr;
  for (const step of steps) transaction.step(step);
  return commit(transaction, to);
}

const textsOf = text => text === '' ? [] : [schema.text(text)];

function nodeOf({ type, text, children = [] }) {
  return type === 'text' ? schema.text(text) : schema.node(type, null, children.map(nodeOf));
}

/** Loads a document, checks it, and answers it whole. */
function load(root) {
  const doc = schema.node('doc', null, root.children.map(nodeOf));
  doc.check();
  state = EditorState.create({ schema, doc });
  commits += 1;
  return { commit: commits, ops: doc.toJSON() };
}

/** Does a step of an update to a transaction. */
function doStep(transaction, step) {
  if ('append' in step) {
    transaction.insert(transaction.doc.content.size, schema.node('paragraph', null, textsOf(step.append)));
  } else if ('set' in step) {
    const position = positionOf(step.set);
    transaction.replaceWith(position, position + state.doc.nodeAt(position).nodeSize, schema.text(step.fields.text));
  } else if ('select' in step) {
    const [key, offset, kind] = step.select.anchor;
    // An appended node isn't in the state yet: the session that begins so selects the only one, which begins at 0.
    const inside = kind === 'text' ? positionOf(key) : 1;
    transaction.setSelection(TextSelection.create(transaction.doc, inside + offset));
  } else {
    noCounterpart(step);
  }
  return transaction;
}

function dispatch(line) {
  const { from } = state.selection;
  switch (line.dispatch) {
    case 'insert-text': return edit(state.tr.insertText(line.payload));
    case 'insert-paragraph': return edit(state.tr.split(from));
    case 'delete-character': return edit(state.tr.delete(from - 1, from));
    case 'undo': return turnBack(undoEntries, redoEntries);
    case 'redo': return turnBack(redoEntries, undoEntries);
    default: return noCounterpart(line);
  }
}

function replyTo(line) {
  if (line.update) return edit(line.update.reduce(doStep, state.tr));
  return line.load ? load(line.load.root) : dispatch(line);
}

const decoder = new TextDecoder();
answerStandardInput(line => JSON.stringify(replyTo(JSON.parse(decoder.decode(line)))), Number(process.argv[2]));
