// What a new document begins with: rules and listeners, which belong to its log of lines, and an empty paragraph.

/** @typedef {import('../lines.js').Line} Line */
/** @typedef {import('../lines.js').Point} Point */
/** @typedef {import('../lines.js').Step} Step */
/** @typedef {{ new: 'paragraph' | 'quote' } | { new: 'heading', fields: { tag: 'h1' | 'h2' | 'h3' } }} NewBlock */

/**
 * Commands that change the type of the block with the caret. commands.js extends them to all selected blocks.
 * @type {Record<string, NewBlock>}
 */
export const blockCommands = {
  'block-paragraph': { new: 'paragraph' },
  'block-heading-1': { new: 'heading', fields: { tag: 'h1' } },
  'block-heading-2': { new: 'heading', fields: { tag: 'h2' } },
  'block-heading-3': { new: 'heading', fields: { tag: 'h3' } },
  'block-quote': { new: 'quote' },
};

/**
 * One can always type before and after a table or a rule, also in a cell.
 * @type {Line[]}
 */
const rules = /** @type {const} */ (['table', 'horizontalrule']).flatMap(on => [
  { rule: { on, if: [{ next: null }], do: [{ after: { type: 'paragraph' } }] } },
  { rule: { on, if: [{ previous: null }], do: [{ before: { type: 'paragraph' } }] } },
]);

/** @type {Line[]} */
const listeners = Object.entries(blockCommands).map(([on, step]) => ({
  listener: {
    on,
    priority: 2,
    when: { selection: 'range' },
    steps: [{ ...step, as: 'block' }, { replace: '@block', with: 'block', keep: true }],
    handled: true,
  },
}));

/** The lines that rules and listeners are; a log that begins anew with a document needs them too. */
export const ruleLines = [...rules, ...listeners];

/**
 * The lines of a new document.
 * @param {number} at the moment
 * @returns {Line[]}
 */
export function startLines(at) {
  const start = /** @type {Point} */ (['first', 0, 'element']);
  /** @type {Step[]} */
  const steps = [{ new: 'paragraph', as: 'first' }, { put: 'first', into: 0 }, { select: { anchor: start, focus: start } }];
  return [...ruleLines, { at, update: steps }];
}
