// A line with its reply, as it was sent: to be folded out.

const LONGEST = 2000; // characters of a line, and of an operation: a load may have millions
const MOST = 60; // operations

/** @typedef {import('../lines.js').Line} Line */
/** @typedef {import('../replies.js').Reply} Reply */
/** @typedef {{ line: Line, reply: Reply, milliseconds: number, count: number }} Told */

/**
 * @param {Told} told
 * @param {Document} document
 * @param {boolean} isOpen
 */
export function entryOf({ line, reply, milliseconds, count }, document, isOpen) {
  const item = document.createElement('li');
  const details = item.appendChild(document.createElement('details'));
  const summary = details.appendChild(document.createElement('summary'));
  item.value = count;
  details.open = isOpen;
  summary.append(nameOf(line), ' ');
  add(summary, 'span', `${outcomeOf(reply)}, ${milliseconds.toFixed(2)} ms`).className = 'inspector-details';
  details.classList.toggle('inspector-refused', Boolean(reply.refused));
  add(details, 'pre', shortened(JSON.stringify(line))).className = 'inspector-sent';
  add(details, 'pre', replyText(reply)).className = 'inspector-reply';
  return item;
}

/**
 * What a line does, in a few words.
 * @param {Line} line
 */
function nameOf(line) {
  if (line.dispatch) return line.dispatch;
  if (line.update) return `update: ${line.update.slice(0, 4).map(step => Object.keys(step)[0]).join(', ')}`;
  return Object.keys(line).find(name => name !== 'at' && name !== 'tags') ?? 'a line';
}

/** @param {Reply} reply */
function outcomeOf({ commit, ops, idle, refused, gathered }) {
  if (refused) return `refused: ${refused.cause}`;
  if (commit !== undefined) return `${ops.length} ${ops.length === 1 ? 'operation' : 'operations'}`;
  if (idle) return 'nothing new';
  return gathered === undefined ? 'taken' : `${gathered} gathered`;
}

/**
 * The reply, with an operation to a row.
 * @param {Reply} reply
 */
function replyText(reply) {
  if (!reply.ops) return shortened(JSON.stringify(reply));
  const { ops, ...others } = reply;
  const rows = ops.slice(0, MOST).map(operation => shortened(JSON.stringify(operation)));
  if (ops.length > MOST) rows.push(`… and ${ops.length - MOST} more`);
  return [JSON.stringify(others), ...rows].join('\n');
}

/** @type {(text: string) => string} */
const shortened = text => (text.length > LONGEST ? `${text.slice(0, LONGEST)} … ${text.length} characters` : text);

/**
 * @param {Element} parent
 * @param {string} name
 * @param {string} text
 */
function add(parent, name, text) {
  const element = parent.appendChild(parent.ownerDocument.createElement(name));
  element.textContent = text;
  return element;
}
