// What a line of an act becomes. The page has commands that the core hasn't, and the core's own are meant for a range
// in one frame: where cells are selected, or a table from its midst on, the page says what is done instead.
import { edgeOf, indexOf, isCell } from '../hosts-order.js';
import { aligned, blocksMade, emptyRemoved, liftedBy, pushedDown } from './blocks.js';
import { cellAt, cellsIn, emptied, formatted, intoTable, nextCell, tableOf, tableRemoved } from './cells.js';
import { formatBits, formatOf } from './formats.js';
import { linked, linksIn, unlinked } from './link-lines.js';
import { listsJoined } from './list-joining.js';
import { outsideLink } from './outside-links.js';
import { blockAt, caretAt, inOrder, isCaret, isRange, linesIn, parentOf, textsIn, within } from './ranges.js';
import { blockCommands } from './rules.js';

/** @typedef {import('../hosts.js').Host} Host */
/** @typedef {import('../hosts.js').Hosts} Hosts */
/** @typedef {import('../lines.js').DispatchLine} DispatchLine */
/** @typedef {import('../lines.js').Line} Line */
/** @typedef {import('../lines.js').Point} Point */
/** @typedef {import('../lines.js').Selection} Selection */
/** @typedef {import('../lines.js').Step} Step */
/**
 * Lines, and behind what they go. If the act is to be repeated once they are done, it goes on from what they have left.
 * @typedef {{ lines: Line[], selection: Selection, isToRepeat?: boolean }} Meant
 */
/** @typedef {{ hosts: Hosts, selection: Selection, cells: Host[], payload: any, format: number }} Place */
/** @typedef {{ lines: Line[], isToRepeat?: boolean }} Done */

/** @type {Record<string, (place: Place) => Done>} */
const own = {
  'align': ({ hosts, selection, cells, payload }) => updated(aligned(linesIn(hosts, selection, cells), payload)),
  'link': ({ hosts, selection, payload }) => ({ lines: [linked(hosts, selection, payload)] }),
  'unlink': ({ hosts, selection }) => updated(unlinked(linksIn(hosts, selection))),
  'clear-format': cleared,
  'insert-rule': ({ hosts, selection }) => updated(ruleInserted(hosts, selection)),
  'delete-table': ({ hosts, selection }) => {
    const table = tableOf(cellAt(hosts, selection));
    return updated(table ? tableRemoved(table) : []);
  },
  'join-lists': ({ hosts, selection }) => {
    const update = listsJoined(hosts, selection);
    return { lines: update.length > 0 ? [{ tags: ['history-merge'], update }] : [] };
  },
  'next-cell': place => besideCell(place, false),
  'previous-cell': place => besideCell(place, true),
};
for (const name of Object.keys(blockCommands)) {
  own[name] = ({ hosts, selection, cells }) => blocksMade(hosts, selection, name, cells);
}

/** Commands that put something at a caret, for which there has to be a block. */
const inserting = new Set(['insert-text', 'insert-tab', 'insert-line-break', 'paste']);
const deleting = new Set(['remove-text', 'delete-character', 'delete-word', 'cut']);
const ofOneSide = new Set(['delete-character', 'delete-word']);
const ofLines = new Set(['make-list', 'remove-list', 'indent', 'outdent']);

/** @type {(update: Step[]) => Done} */
const updated = update => ({ lines: [{ update }] });

/**
 * @param {Hosts} hosts
 * @param {Line} line
 * @param {Selection} selected
 * @param {number} format of what is selected
 * @returns {Meant}
 */
export function meantBy(hosts, line, selected, format) {
  const { dispatch: name, payload } = line;
  if (name === undefined || !selected) return { lines: [line], selection: selected };
  const inFrame = within(hosts, selected);
  // Only what is put in goes beside a link: the command `link` at its edge gives it another address.
  const selection = inserting.has(name) ? outsideLink(hosts, inFrame) : inFrame, cells = cellsIn(hosts, selection);
  const place = { hosts, selection, cells, payload, format };
  const meant = Object.hasOwn(own, name) ? own[name](place) : { lines: [ofCore(place, line)] };
  return { ...meant, selection };
}

/**
 * What a command of the core is at a place.
 * @param {Place} place
 * @param {DispatchLine} line
 * @returns {Line}
 */
function ofCore(place, line) {
  const { hosts, selection, cells, payload } = place, { dispatch: name } = line;
  if (cells.length > 0) return overCells(cells, selection, line);
  if (deleting.has(name) && isAll(hosts, selection)) return { update: emptied([hosts.root]) };
  if (name === 'delete-character' && payload === 'back') {
    const lifting = liftedBy(hosts, selection);
    if (lifting === 'outdent') return { dispatch: 'outdent' };
    if (lifting) return own[lifting](place).lines[0];
  }
  const steps = stepsBeside(place, line);
  if (steps) return { update: steps };
  const isBetweenBlocks = inserting.has(name) && hasNoBlock(hosts, selection);
  return isBetweenBlocks ? { update: [{ dispatch: 'insert-paragraph' }, stepOf(line)] } : line;
}

/** @type {(line: DispatchLine) => Step} */
const stepOf = ({ dispatch, payload }) => payload === undefined ? { dispatch } : { dispatch, payload };

/**
 * The steps of a command whose outcome depends on what is next to the block with the caret, or null.
 * @param {Place} place
 * @param {DispatchLine} line
 */
function stepsBeside({ hosts, selection }, { dispatch: name, payload }) {
  if (name === 'insert-paragraph') return pushedDown(hosts, selection);
  if (!ofOneSide.has(name)) return null;
  const steps = payload === 'forward' ? emptyRemoved(hosts, selection) : null;
  return steps ?? intoTable(hosts, selection, payload === 'back');
}

/**
 * Whether a range is all of the document: where that goes, a paragraph is left, whatever the first block was.
 * @param {Hosts} hosts
 * @param {Selection} selection
 */
function isAll(hosts, selection) {
  if (!isRange(selection) || isCaret(selection)) return false;
  return String(inOrder(hosts, selection)) === String([edgeOf(hosts.root, true), edgeOf(hosts.root, false)]);
}

/**
 * Whether both ends of a range are in no block.
 * @param {Hosts} hosts
 * @param {Selection} selection
 */
function hasNoBlock(hosts, selection) {
  return isRange(selection) && [selection.anchor, selection.focus].every(point => blockAt(hosts, point) === null);
}

/**
 * A command of the core where cells are selected.
 * @param {Host[]} cells
 * @param {Selection} selection
 * @param {DispatchLine} line
 * @returns {Line}
 */
function overCells(cells, selection, line) {
  const { dispatch: name, payload } = line;
  if (deleting.has(name)) return { update: emptied(cells) };
  if (inserting.has(name) || name === 'insert-paragraph') return { update: [...emptied(cells), stepOf(line)] };
  if (name === 'format-text') return { update: formatted(cells, formatBits[String(payload)], formatOf) };
  if (!ofLines.has(name)) return line;
  const steps = cells.flatMap(cell => /** @type {Step[]} */ ([
    { select: { anchor: edgeOf(cell, true), focus: edgeOf(cell, false) } }, stepOf(line),
  ]));
  return { update: [...steps, { select: selection }] };
}

/**
 * All formats go: a command clears one that the first text has, and otherwise sets it in all first.
 * @param {Place} place
 */
function cleared({ hosts, selection, cells, format }) {
  const formats = cells.length > 0 || !isRange(selection) || isCaret(selection)
    ? [format]
    : textsIn(hosts, selection).map(({ host }) => formatOf(host));
  const names = Object.keys(formatBits).filter(name => formats.some(one => one & formatBits[name]));
  const steps = names.flatMap(name => {
    const step = { dispatch: 'format-text', payload: name };
    return formats[0] & formatBits[name] ? [step] : [step, step];
  });
  return updated(steps);
}

/**
 * A rule goes behind the block, or in its place if that is an empty paragraph, and the caret behind the rule.
 * @param {Hosts} hosts
 * @param {Selection} selection
 */
function ruleInserted(hosts, selection) {
  let at = isRange(selection) ? blockAt(hosts, selection.focus) : null;
  if (at === null) return [];
  while (parentOf(at).parent !== null && !isCell(parentOf(at))) at = parentOf(at);
  const { key, children } = parentOf(at), index = indexOf(at) + 1, next = children[index];
  /** @type {Step[]} */
  const steps = [{ new: 'horizontalrule', as: 'rule' }, { put: 'rule', into: key, at: index }];
  if (next && next.tag === 'p') steps.push({ select: caretAt(edgeOf(next, true)) });
  else {
    steps.push({ new: 'paragraph', as: 'behind' }, { put: 'behind', into: key, at: index + 1 });
    steps.push({ select: caretAt(/** @type {Point} */ (['behind', 0, 'element'])) });
  }
  if (at.tag === 'p' && at.children.length === 0) steps.push({ remove: at.key });
  return steps;
}

/**
 * The caret goes to another cell; behind the last one there is a new row first.
 * @param {Place} place
 * @param {boolean} isBack
 * @returns {Done}
 */
function besideCell({ hosts, selection }, isBack) {
  const cell = cellAt(hosts, selection), next = cell && nextCell(cell, isBack);
  if (next) return updated([{ select: caretAt(edgeOf(next, false)) }]);
  if (cell === null || isBack) return { lines: [] };
  return { lines: [{ dispatch: 'insert-row', payload: 'after' }], isToRepeat: true };
}
