// Slices: their plain text, the cells of a table as a slice, and how one is pasted so that it fits where it goes.

/** @typedef {import('../replies.js').Slice} Slice */
/** @typedef {import('../replies.js').Document} Document */
/** @typedef {import('../lines.js').Step} Step */
/** @typedef {Record<string, any> & { type: string, children?: Node[] }} Node */
/**
 * Where something is pasted: whether there is anything in the block before the place and behind it, and whether it is
 * in an item, and in a link.
 * @typedef {{ hasBefore: boolean, hasBehind: boolean, isItem: boolean, isInLink: boolean }} Place
 */
/** @typedef {{ nodes: Node[], depth: number }} TextLine */
/**
 * A slice, and whether of its first block only the rear was copied, and of its last only the front.
 * @typedef {Slice & { isStartOpen?: boolean, isEndOpen?: boolean }} Copied
 */

const inlineTypes = new Set(['text', 'tab', 'linebreak', 'link', 'embed']);
const textBlocks = new Set(['paragraph', 'heading', 'quote']);

/** @param {Node} node */
const isInline = node => inlineTypes.has(node.type);

/** @param {Node} node */
const isTextBlock = node => textBlocks.has(node.type) && childrenOf(node).every(isInline);

/** @param {Node} node */
const childrenOf = node => node.children ?? [];

/**
 * @param {Node[]} nodes
 * @returns {Slice}
 */
export const sliceOf = nodes => ({ namespace: 'lexical-core', nodes: /** @type {any} */ (nodes) });

/**
 * Whether anything of a slice can be seen.
 * @param {Slice | null} slice
 */
export const isEmpty = slice => slice === null || slice.nodes.length === 0 || slice.nodes.every(isEmptyParagraph);

/** @param {Node} node */
const isEmptyParagraph = node => node.type === 'paragraph' && childrenOf(node).length === 0;

// ---- plain text

/**
 * The plain text of nodes: a blank line between blocks, a line for each item and each row, tabs between cells.
 * @param {Node[]} nodes
 * @returns {string}
 */
export function textOf(nodes) {
  if (nodes.length > 0 && nodes.every(isInline)) return nodes.map(inlineText).join('');
  return nodes.map(node => blockText(node, 0)).join('\n\n');
}

/**
 * @param {Node} node
 * @returns {string}
 */
function inlineText(node) {
  if (node.type === 'text') return node.text;
  if (node.type === 'tab') return '\t';
  if (node.type === 'linebreak') return '\n';
  if (node.type === 'embed') return node.src;
  return childrenOf(node).map(inlineText).join('');
}

/**
 * @param {Node} node
 * @param {number} depth
 * @returns {string}
 */
function blockText(node, depth) {
  const children = childrenOf(node);
  switch (node.type) {
    case 'horizontalrule': return '---';
    case 'list': return children.map((item, index) => itemText(node, item, index, depth)).join('\n');
    case 'table': return children.map(row => blockText(row, depth)).join('\n');
    case 'tablerow': return children.map(cell => textOf(childrenOf(cell)).replace(/\s*\n\s*/g, ' ')).join('\t');
    default: return textOf(children);
  }
}

/**
 * @param {Node} list
 * @param {Node} item
 * @param {number} index
 * @param {number} depth
 */
function itemText(list, item, index, depth) {
  const lists = childrenOf(item).filter(child => child.type === 'list');
  const words = childrenOf(item).filter(child => child.type !== 'list');
  const marks = { bullet: '- ', number: `${item.value ?? index + 1}. `, check: item.checked ? '[x] ' : '[ ] ' };
  const mark = marks[/** @type {keyof typeof marks} */ (list.listType)] ?? '- ';
  const own = words.length > 0 || lists.length === 0 ? ['  '.repeat(depth) + mark + textOf(words)] : [];
  return [...own, ...lists.map(inner => blockText(inner, depth + 1))].join('\n');
}

/**
 * The steps that type a text: each of its lines is a paragraph, blank ones are left out.
 * @param {string} text
 * @returns {Step[]}
 */
export function stepsOfText(text) {
  const whole = text.replace(/\p{Surrogate}/gu, '\ufffd');
  const lines = whole.split(/[\r\n\u2028\u2029]+/).filter((line, index) => line !== '' || index === 0);
  return lines.flatMap((line, index) => [
    ...(index > 0 ? [/** @type {Step} */ ({ do: 'insert-paragraph' })] : []),
    ...stepsOfLine(line),
  ]);
}

/**
 * @param {string} line
 * @returns {Step[]}
 */
function stepsOfLine(line) {
  return line.split('\t').flatMap((words, index) => [
    ...(index > 0 ? [/** @type {Step} */ ({ do: 'insert-tab' })] : []),
    ...(words === '' ? [] : [/** @type {Step} */ ({ do: 'insert-text', payload: words })]),
  ]);
}

// ---- pasting

/**
 * @param {Node[]} nodes
 * @returns {Step[]}
 */
const paste = nodes => nodes.length === 0 ? [] : [{ do: 'paste', payload: JSON.stringify(sliceOf(nodes)) }];

/**
 * The steps that paste a slice. The core puts blocks between blocks. As people know it, a paragraph that is first goes
 * on with the text before the caret, and one that is last with the text behind it; and in a list each line is an item.
 * Parts of blocks do so wherever they can: what was cut is whole again once it is pasted where it was.
 * @param {Copied} slice
 * @param {Place} place
 * @returns {Step[]}
 */
export function stepsOfSlice({ nodes, isStartOpen = false, isEndOpen = false }, place) {
  const [first, ...others] = /** @type {Node[]} */ (nodes);
  if (first === undefined) return [];
  const pasteInline = (/** @type {Node[]} */ inlines) => paste(place.isInLink ? withoutLinks(inlines) : inlines);
  if (nodes.every(isInline)) return pasteInline(nodes);
  if (place.isItem) {
    const lines = linesOf(nodes);
    if (lines !== null) return itemsOf(lines);
  }
  const isFilled = place.hasBefore || place.hasBehind;
  if (others.length === 0 && isTextBlock(first) && (isFilled || first.type === 'paragraph' && !first.format)) {
    return pasteInline(childrenOf(first));
  }
  if (place.isItem) return paste(nodes);
  const last = others.at(-1) ?? first;
  const isFirstJoined = place.hasBefore && (isStartOpen ? isTextBlock(first) : first.type === 'paragraph');
  const isLastJoined = place.hasBehind && childrenOf(last).length > 0
    && (isEndOpen ? isTextBlock(last) : place.hasBefore && last.type === 'paragraph');
  return [
    ...(isFirstJoined ? [...pasteInline(childrenOf(first)), ...paste(others)] : paste(nodes)),
    ...(isLastJoined ? [/** @type {Step} */ ({ do: 'delete-character', payload: 'forward' })] : []),
  ];
}

/**
 * Inlines with the content of links in the place of these: no link may be in another.
 * @param {Node[]} nodes
 */
const withoutLinks = nodes => nodes.flatMap(node => node.type === 'link' ? childrenOf(node) : [node]);

/**
 * The lines of blocks of text and of lists, as items have them; null where there is anything else.
 * @param {Node[]} nodes
 * @param {number} depth
 * @returns {TextLine[] | null}
 */
function linesOf(nodes, depth = 0) {
  /** @type {TextLine[]} */
  const lines = [];
  for (const node of nodes) {
    if (isTextBlock(node)) {
      lines.push({ nodes: childrenOf(node), depth });
    } else if (node.type === 'list') {
      for (const item of childrenOf(node)) {
        const words = childrenOf(item).filter(isInline);
        if (words.length > 0) lines.push({ nodes: words, depth });
        const inner = linesOf(childrenOf(item).filter(child => !isInline(child)), depth + 1);
        if (inner === null) return null;
        lines.push(...inner);
      }
    } else {
      return null;
    }
  }
  return lines.filter(line => line.nodes.length > 0); // a break in an empty item would end the list
}

/**
 * @param {TextLine[]} lines
 * @returns {Step[]}
 */
function itemsOf(lines) {
  let depth = lines[0]?.depth ?? 0;
  return lines.flatMap((line, index) => {
    if (index === 0) return paste(line.nodes);
    /** @type {Step} */
    const move = { do: line.depth > depth ? 'indent' : 'outdent' };
    // An item goes one level deeper than the one before it at most; and only what went deeper here comes up again.
    const levels = line.depth > depth ? 1 : depth - Math.max(line.depth, lines[0].depth);
    depth += line.depth > depth ? 1 : -levels;
    return [/** @type {Step} */ ({ do: 'insert-paragraph' }), ...Array(levels).fill(move), ...paste(line.nodes)];
  });
}

/**
 * Nodes as the children of a root: texts and links that stand alone are put into paragraphs.
 * @param {Node[]} nodes
 * @returns {Document}
 */
export function documentOf(nodes) {
  /** @type {Node[]} */
  const blocks = [];
  let open = null;
  for (const node of nodes) {
    if (!isInline(node)) {
      blocks.push(node);
      open = null;
    } else if (open === null) {
      blocks.push(open = { type: 'paragraph', children: [node] });
    } else {
      open.children.push(node);
    }
  }
  if (blocks.length === 0) blocks.push({ type: 'paragraph', children: [] });
  return /** @type {any} */ ({ root: { type: 'root', children: blocks, version: 1 } });
}

/**
 * A document in which each line of a text is a paragraph, blank lines too.
 * @param {string} text
 */
export function documentOfText(text) {
  const lines = text.replace(/\p{Surrogate}/gu, '\ufffd').replace(/(\r\n?|\n)$/, '').split(/\r\n?|\n/);
  const childrenFor = (/** @type {string} */ line) => line === '' ? [] : [{ type: 'text', text: line }];
  return documentOf(lines.map(line => ({ type: 'paragraph', children: childrenFor(line) })));
}
