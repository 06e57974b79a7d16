// To-dos that another program writes as marks in a list, as Notion does: `[ ] Task` and `[x] Task`. They become items
// of a list of checks, and others around them stay as they are.

/** @typedef {import('./slices.js').Node} Node */

const mark = /^\[([ x])\](?:\s+|$)/i;

/** @param {Node} node */
const childrenOf = node => node.children ?? [];

/**
 * Nodes with their to-dos as items of lists of checks.
 * @param {Node[]} nodes
 * @returns {Node[]}
 */
export function withChecks(nodes) {
  return nodes.flatMap(node => {
    if (node.children === undefined) return [node];
    const whole = { ...node, children: withChecks(node.children) };
    return node.type === 'list' && node.children.some(item => markOf(item) !== null) ? partsOf(whole) : [whole];
  });
}

/**
 * What the mark at the start of an item is; null without one.
 * @param {Node} item
 */
function markOf(item) {
  const [first] = childrenOf(item);
  return first?.type === 'text' ? mark.exec(first.text) : null;
}

/**
 * A list in parts: to-dos, and items that are none. What holds a list alone belongs to the item before it.
 * @param {Node} list
 */
function partsOf(list) {
  /** @type {Node[]} */
  const parts = [];
  for (const item of childrenOf(list)) {
    const found = markOf(item), isNesting = childrenOf(item)[0]?.type === 'list', part = parts.at(-1);
    const listType = isNesting && part ? part.listType : found ? 'check' : list.listType;
    if (part && part.listType === listType) part.children?.push(found ? checked(item, found) : item);
    else parts.push({ ...partOf(list, listType), children: [found ? checked(item, found) : item] });
  }
  parts.forEach(number);
  return parts;
}

/**
 * @param {Node} list
 * @param {string} listType
 */
const partOf = (list, listType) => listType === 'check' ? { ...list, listType, tag: 'ul', start: 1 } : list;

/**
 * A to-do as an item with a check, without its mark.
 * @param {Node} item
 * @param {RegExpExecArray} found
 */
function checked(item, [{ length }, sign]) {
  const [first, ...others] = childrenOf(item);
  const words = first.text.slice(length);
  return { ...item, checked: sign !== ' ', children: words === '' ? others : [{ ...first, text: words }, ...others] };
}

/**
 * Items are numbered from the start of their list; what holds a list alone has no number of its own.
 * @param {Node} list
 */
function number(list) {
  let value = list.start ?? 1;
  for (const item of childrenOf(list)) {
    item.value = value;
    if (childrenOf(item)[0]?.type !== 'list') value += 1;
  }
}
