// What the bar offers: the label, the icon, the keys and the lines of each command, and when it counts as pressed.
import { around } from './around.js';
import { cellsIn } from './cells.js';
import { formatBits } from './formats.js';
import { linesIn, placesOf } from './ranges.js';

/** @typedef {import('./page.js').AnyPage} Page */
/** @typedef {ReturnType<typeof stateOf>} State */
/** @typedef {import('./icons.js').Name} Name */
/** @typedef {import('../lines.js').Line} Line */

/**
 * `level` is the width of the bar from which there is a button, see toolbar.js. `isOff` says when nothing can be done.
 * @typedef {{ label: string, icon: import('./icons.js').Name, keys?: string, level?: number,
 *   lines: (state: State, page: Page) => Line | Line[],
 *   isPressed?: (state: State) => boolean, isOff?: (state: State) => boolean }} Control
 */

/** @type {(name: string, payload?: string) => Line} */
const command = (name, payload) => payload === undefined ? { dispatch: name } : { dispatch: name, payload };

/** @type {(name: Name, label: string, keys: string, level?: number) => Control} */
const format = (name, label, keys, level) => ({
  label, icon: name, keys, level,
  lines: () => command('format-text', name),
  isPressed: state => (state.format & formatBits[name]) !== 0,
});

/** @type {(name: Name, label: string, keys: string) => Control} */
const block = (name, label, keys) => ({
  label, icon: name, keys,
  lines: () => command(`block-${name}`),
  isPressed: state => state.block === name,
});

/** @type {(name: Name, label: string, keys: string, level?: number) => Control} */
const list = (name, label, keys, level) => ({
  label, icon: name, keys, level,
  lines: state => state.block === name
    ? command('block-paragraph')
    : [command('make-list', name), command('join-lists')],
  isPressed: state => state.block === name,
});

/**
 * The side from which a block is read needs no alignment: then it is as it was before any was given.
 * @type {(name: 'left' | 'center' | 'right' | 'justify', label: string, keys: string) => Control}
 */
const alignment = (name, label, keys) => ({
  label, icon: `align-${name}`, keys, level: 2,
  lines: ({ start }) => command('align', name === start ? '' : name),
  isPressed: ({ align, start }) => (align || start) === name,
});

/** @type {(name: 'ltr' | 'rtl', label: string, icon: Name) => Control} */
const direction = (name, label, icon) => ({
  label, icon,
  lines: (state, page) => {
    const fields = { direction: state.direction === name ? null : name };
    return { update: selectedLines(page).map(({ key }) => ({ set: key, fields })) };
  },
  isPressed: state => state.direction === name,
});

/** @type {Record<string, Control>} */
export const controls = {
  'undo': { label: 'Undo', icon: 'undo', keys: 'Mod+Z', lines: () => command('undo'), isOff: state => !state.canUndo },
  'redo': {
    label: 'Redo', icon: 'redo', keys: 'Mod+Shift+Z', lines: () => command('redo'), isOff: state => !state.canRedo,
  },

  'block-paragraph': block('paragraph', 'Paragraph', 'Mod+Alt+0'),
  'block-heading-1': block('heading-1', 'Heading 1', 'Mod+Alt+1'),
  'block-heading-2': block('heading-2', 'Heading 2', 'Mod+Alt+2'),
  'block-heading-3': block('heading-3', 'Heading 3', 'Mod+Alt+3'),
  'block-quote': block('quote', 'Quote', 'Mod+Alt+4'),

  'bold': format('bold', 'Bold', 'Mod+B'),
  'italic': format('italic', 'Italic', 'Mod+I'),
  'underline': format('underline', 'Underline', 'Mod+U', 1),
  'strikethrough': format('strikethrough', 'Strikethrough', 'Mod+Shift+X', 1),
  'code': format('code', 'Code', 'Mod+E', 1),
  'highlight': format('highlight', 'Highlight', 'Mod+Shift+H', 1),
  'subscript': format('subscript', 'Subscript', 'Mod+,'),
  'superscript': format('superscript', 'Superscript', 'Mod+.'),
  'clear-format': { label: 'Clear formatting', icon: 'clear', keys: 'Mod+\\', lines: () => command('clear-format') },

  'align-left': alignment('left', 'Align left', 'Mod+Shift+L'),
  'align-center': alignment('center', 'Center', 'Mod+Shift+E'),
  'align-right': alignment('right', 'Align right', 'Mod+Shift+R'),
  'align-justify': alignment('justify', 'Justify', 'Mod+Shift+J'),
  'left-to-right': direction('ltr', 'Left to right', 'left-to-right'),
  'right-to-left': direction('rtl', 'Right to left', 'right-to-left'),

  'bullet': list('bullet', 'Bulleted list', 'Mod+Shift+8'),
  'number': list('number', 'Numbered list', 'Mod+Shift+7', 1),
  'check': list('check', 'Check list', 'Mod+Shift+9', 1),
  'toggle-checked': {
    label: 'Check off', icon: 'done', keys: 'Mod+Enter',
    lines: ({ block }) => block === 'check' ? command('toggle-checked') : { update: [] },
  },
  'outdent': { label: 'Decrease indent', icon: 'outdent', keys: 'Mod+[', level: 2, lines: () => command('outdent') },
  'indent': { label: 'Increase indent', icon: 'indent', keys: 'Mod+]', level: 2, lines: () => command('indent') },

  'insert-rule': { label: 'Dividing line', icon: 'rule', lines: () => command('insert-rule') },
  'select-all': { label: 'Select all', icon: 'select-all', keys: 'Mod+A', lines: () => command('select-all') },
};

/** @param {Page} page */
function selectedLines(page) {
  const { hosts } = page.view, selection = page.selected ?? placesOf(page.selection);
  return linesIn(hosts, selection, cellsIn(hosts, selection));
}

/**
 * What is around the caret. `direction` is what the document says of the first selected line, and `start` the side on
 * which that begins.
 * @param {Page} page
 */
export function stateOf(page) {
  const [line] = selectedLines(page);
  const isFromRight = line !== undefined && page.view.elementOf(line).matches(':dir(rtl)');
  return {
    ...around(page),
    direction: line?.attributes.get('dir') ?? null,
    start: isFromRight ? 'right' : 'left',
  };
}
