// A log that begins with the document as it is now, in the place of the lines that made it.

/** @typedef {import('../lines.js').Line} Line */
/** @typedef {import('../lines.js').Selection} Selection */
/** @typedef {import('../hosts.js').Host} Host */
/** @typedef {import('../hosts.js').Hosts} Hosts */
/** @typedef {import('../replies.js').ReplySelection} ReplySelection */
/** @typedef {import('../replies.js').ReplyPoint} ReplyPoint */

/**
 * The rules and listeners of the old lines, a load, and what is selected.
 * @param {{ editor: import('../lexical.js').Lexical, view: { hosts: Hosts }, selection: ReplySelection }} page
 * @param {Line[]} lines
 * @param {number} [at]
 * @returns {Line[]}
 */
export function linesAnew({ editor, view, selection }, lines, at = Date.now()) {
  const registered = lines.filter(line => line.rule !== undefined || line.listener !== undefined);
  const { state } = editor.line({ show: 'state' });
  const select = { at, update: [{ select: withKeysAnew(selection, view.hosts) }] };
  return [...registered, { at, load: state, tags: ['history-merge'] }, .../** @type {Line[]} */ ([select])];
}

/**
 * A selection after a load into a new editor, where keys count up in the order of the document.
 * @param {ReplySelection} selection
 * @param {Hosts} hosts
 * @returns {Selection}
 */
function withKeysAnew(selection, hosts) {
  const keys = keysInOrder(hosts);
  const key = (/** @type {number} */ old) => keys.get(old) ?? 0;
  const point = (/** @type {ReplyPoint} */ [old, ...rest]) => /** @type {ReplyPoint} */ ([key(old), ...rest]);
  if (selection === null) return null;
  switch (selection.kind) {
    case 'range': return { anchor: point(selection.anchor), focus: point(selection.focus), format: selection.format };
    case 'cells': return { anchor: key(selection.anchor), focus: key(selection.focus), table: key(selection.table) };
    case 'nodes': return { keys: selection.keys.map(key) };
  }
}

/** @param {Hosts} hosts */
function keysInOrder({ root }) {
  /** @type {Map<number, number>} */
  const keys = new Map();
  /** @param {Host} host */
  const visit = host => {
    keys.set(host.key, keys.size);
    host.children.forEach(visit);
  };
  visit(root);
  return keys;
}
