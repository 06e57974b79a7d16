// Random lines over the present document, the same for the same seed: most are done, and some are refused.

const words = ['one ', 'two', ' three', 'e\u0301', '😀', '<b>&"', 'a b c', '', '\u05d0\u05d1', 'x\u0000\t'];
const styles = ['', 'color: red', 'position:fixed;inset:0', 'color:"&'];
const addresses = ['https://example.org/?a=1&b="2"', 'javascript:alert(1)', '#here', ''];
const formats = ['bold', 'italic', 'strikethrough', 'underline', 'code', 'subscript', 'superscript', 'highlight'];
const inline = ['text', 'tab', 'linebreak', 'embed', 'link'];
const blocks = ['paragraph', 'heading', 'quote', 'list', 'table', 'horizontalrule'];
const holds = {
  root: blocks,
  tablecell: blocks,
  paragraph: inline,
  heading: inline,
  quote: [...inline, 'paragraph', 'heading', 'list'],
  list: ['listitem'],
  listitem: [...inline, 'list'],
  link: inline.slice(0, -1),
  table: ['tablerow'],
  tablerow: ['tablecell'],
};
const types = Object.keys(holds).slice(1).concat('text', 'tab', 'linebreak', 'embed', 'horizontalrule');
const typesOfTags = {
  div: 'root', p: 'paragraph', blockquote: 'quote', ul: 'list', ol: 'list', li: 'listitem', a: 'link', table: 'table',
  tr: 'tablerow', td: 'tablecell', th: 'tablecell', br: 'linebreak', hr: 'horizontalrule',
};

/** Numbers below a bound, items of a list, and chances. */
export class Random {
  #state;

  constructor(seed) {
    this.#state = seed >>> 0;
  }

  below(bound) {
    this.#state = (this.#state + 0x6d2b79f5) >>> 0;
    let mixed = Math.imul(this.#state ^ this.#state >>> 15, this.#state | 1);
    mixed ^= mixed + Math.imul(mixed ^ mixed >>> 7, mixed | 61);
    return Math.floor(((mixed ^ mixed >>> 14) >>> 0) / 2 ** 32 * bound);
  }

  pick(list) {
    return list[this.below(list.length)];
  }

  /** True once in so many times. */
  once(times) {
    return this.below(times) === 0;
  }
}

/** What a line may be about: the nodes that the placed hosts show. */
function nodesOf(hosts) {
  return [...hosts].filter(host => host.parent || host.id === 0).map(host => ({
    key: host.key,
    type: typeOf(host),
    text: host.text,
    children: host.children.map(({ key }) => key),
    parent: host.parent && { key: host.parent.key, type: typeOf(host.parent) },
  }));
}

function typeOf({ tag, text }) {
  if (text !== null) return text === '\t' ? 'tab' : 'text';
  return typesOfTags[tag] ?? (/^h\d$/.test(tag) ? 'heading' : 'embed');
}

/** A line over what hosts show. */
export function randomLine(random, hosts) {
  const nodes = nodesOf(hosts);
  const line = random.pick(makers)(random, nodes);
  if (random.once(6)) line.at = random.below(5000);
  return line;
}

const some = (random, nodes, is) => {
  const found = nodes.filter(is);
  return random.pick(found.length > 0 ? found : nodes);
};
const anyBut = (random, nodes) => some(random, nodes, ({ key }) => key !== 0);
const textIn = (random, nodes) => some(random, nodes, ({ type }) => type === 'text');
const update = (...steps) => ({ update: steps });

/** A node that mostly may hold one of the type. */
function holderOf(random, nodes, type) {
  return random.once(8) ? random.pick(nodes) : some(random, nodes, node => holds[node.type]?.includes(type));
}

function fieldsOf(random, type) {
  switch (type) {
    case 'text': return {
      text: random.pick(words) + random.below(10), format: random.below(256), style: random.pick(styles),
    };
    case 'tab': return { format: random.below(256) };
    case 'linebreak': case 'horizontalrule': return {};
    case 'embed': return { src: random.pick(addresses) };
    case 'link': return {
      url: random.pick(addresses), target: random.pick([null, '_blank']), title: random.pick([null, '"']),
    };
    case 'list': return { listType: random.pick(['bullet', 'number', 'check']), start: random.below(5) };
    case 'heading': return { tag: `h${1 + random.below(6)}` };
    case 'tablecell': return {
      headerState: random.below(4), colSpan: 1 + random.below(3), backgroundColor: random.pick([null, 'red']),
    };
    default: return {
      format: random.pick(['', 'center']), indent: random.below(3), direction: random.pick([null, 'rtl']),
    };
  }
}

/** What nodes are made with, so that they aren't empty. */
const fillings = { list: 'listitem', link: 'text', table: 'tablerow', tablerow: 'tablecell', tablecell: 'paragraph' };

/** Steps that make a node, and what is in it. */
function making(random, type, name) {
  const mayHaveText = type !== 'listitem' && holds[type]?.includes('text');
  const fill = fillings[type] ?? (mayHaveText && random.once(2) ? 'text' : null);
  const steps = [{ new: type, fields: fieldsOf(random, type), as: name }];
  if (fill) steps.push(...making(random, fill, `${name}'`), { put: `${name}'`, into: name });
  return steps;
}

function putting(random, nodes) {
  const type = random.pick(types), holder = holderOf(random, nodes, type);
  const put = { put: 'new', into: holder.key };
  if (random.once(2)) put.at = random.below(holder.children.length + 1);
  return update(...making(random, type, 'new'), put);
}

function moving(random, nodes) {
  const { key, type } = anyBut(random, nodes), holder = holderOf(random, nodes, type);
  const put = { put: key, into: holder.key };
  if (random.once(2)) put.at = random.below(holder.children.length + 1);
  return update(put);
}

function replacing(random, nodes) {
  const { key, type, parent } = anyBut(random, nodes);
  const other = random.once(4) ? random.pick(types) : random.pick(holds[parent?.type] ?? [type]);
  return update(...making(random, other, 'new'), { replace: key, with: 'new', keep: random.once(2) });
}

function setting(random, nodes) {
  const { key, type } = random.pick(nodes);
  const { tag, listType, ...fields } = fieldsOf(random, type);
  return update({ set: key, fields });
}

function splitting(random, nodes) {
  const { key, text } = textIn(random, nodes);
  return update({ split: key, at: [1 + random.below(Math.max(1, (text ?? '').length - 1))] });
}

function joining(random, nodes) {
  const { children } = some(random, nodes, node => node.children.length > 1);
  const index = random.below(Math.max(1, children.length - 1));
  return update({ join: children[index] ?? 0, with: children[index + 1] ?? 1 });
}

function wrapping(random, nodes) {
  const { key, type } = anyBut(random, nodes);
  const around = random.pick(Object.keys(holds).filter(holder => holder !== 'root' && holds[holder].includes(type)));
  return update({ new: around ?? 'quote', fields: {}, as: 'around' }, { wrap: key, in: 'around' });
}

function pointIn(random, nodes) {
  const node = random.once(3) ? some(random, nodes, ({ type }) => holds[type]) : textIn(random, nodes);
  if (node.text === null) return [node.key, random.below(node.children.length + 1), 'element'];
  return [node.key, random.below(node.text.length + 1), 'text'];
}

function selecting(random, nodes) {
  if (random.once(12)) return { select: random.once(2) ? null : { keys: [anyBut(random, nodes).key] } };
  const rows = nodes.filter(({ type, children }) => type === 'tablerow' && children.length > 0);
  if (rows.length > 0 && random.once(4)) {
    const { parent } = random.pick(rows);
    const cells = rows.filter(row => row.parent.key === parent.key).flatMap(({ children }) => children);
    return { select: { anchor: random.pick(cells), focus: random.pick(cells), table: parent.key } };
  }
  const anchor = pointIn(random, nodes);
  return { select: { anchor, focus: random.once(2) ? anchor : pointIn(random, nodes) } };
}

const commands = [
  ...words.filter(Boolean).map(word => ['insert-text', word]),
  ...formats.map(format => ['format-text', format]),
  ['remove-text'], ['insert-paragraph'], ['insert-paragraph'], ['insert-line-break'], ['insert-tab'], ['select-all'],
  ['delete-character', 'back'], ['delete-character', 'forward'], ['delete-word', 'back'], ['delete-word', 'forward'],
  ['make-list', 'bullet'], ['make-list', 'number'], ['make-list', 'check'], ['remove-list'], ['indent'], ['indent'],
  ['outdent'], ['toggle-checked'], ['insert-table', [2, 2, true]], ['insert-row', 'after'], ['insert-column', 'before'],
  ['delete-row'], ['delete-column'], ['merge-cells'], ['unmerge'], ['cut'],
];

function commanding(random, nodes) {
  const [name, payload = null] = random.pick(commands);
  return update(selecting(random, nodes), { do: name, payload });
}

function dispatching(random) {
  const [dispatch, payload = null] = random.pick(commands);
  return { dispatch, payload };
}

/** A document's node, with children that it may hold. */
function documentNode(random, type, depth) {
  const node = { type, ...fieldsOf(random, type) };
  if (!holds[type]) return node;
  const count = random.below(depth > 0 ? 4 : 1);
  node.children = Array.from({ length: count }, () => documentNode(random, random.pick(holds[type]), depth - 1));
  return node;
}

function loading(random) {
  const children = Array.from({ length: 1 + random.below(4) }, () => documentNode(random, random.pick(blocks), 4));
  return { load: { root: { type: 'root', children } } };
}

const makers = [
  random => update({ append: random.pick(words) }),
  putting, putting, putting, moving, moving, replacing, setting, setting, splitting, joining, wrapping,
  (random, nodes) => update({ remove: anyBut(random, nodes).key }),
  (random, nodes) => update({ unwrap: anyBut(random, nodes).key }),
  (random, nodes) => update({ children: random.pick(nodes).key, into: random.pick(nodes).key }),
  (random, nodes) => update({ mark: random.pick(nodes).key }),
  (random, nodes) => update(selecting(random, nodes)),
  commanding, commanding, commanding, commanding, commanding, dispatching, dispatching,
  () => ({ dispatch: 'undo' }), () => ({ dispatch: 'undo' }), () => ({ dispatch: 'redo' }),
  random => random.once(3) ? loading(random) : update({ append: 'more' }),
  (random, nodes) => ({ ...commanding(random, nodes), defer: true }),
  () => ({ flush: true }),
];
