// The form of operations: whether a value is one at all. Whether it fits, the tree of hosts knows.

/** @typedef {import('./replies.js').Operation} Operation */
/** @typedef {'hosts' | 'text' | 'nothing'} Content */
/** @typedef {(value: unknown) => boolean} Check */

const LAST = 4_294_967_295; // no host has it as its id
const SHOWN = 40; // characters of a string in a message

/** @type {(content: Content) => (tag: string) => [string, Content]} */
const having = content => tag => [tag, content];
const inner = ['strong', 'em', 'span'];
const outer = ['code', 'mark', 'sub', 'sup'];

/** What is inside a host of each tag that there is. An embed is a `span` too, with no text. */
const contents = new Map([
  ...['div', 'p', 'h1', 'h2', 'h3', 'h4', 'h5', 'h6', 'blockquote', 'ul', 'ol', 'li', 'a', 'table', 'tr', 'th', 'td']
    .map(having('hosts')),
  ...[...inner, ...outer.flatMap(word => inner.map(within => `${word}>${within}`))].map(having('text')),
  ...['br', 'hr'].map(having('nothing')),
]);

/**
 * What a host of the tag may have inside.
 * @param {string} tag
 * @returns {Content}
 */
export function contentOf(tag) {
  return /** @type {Content} */ (contents.get(tag)); // tags are checked before hosts have them
}

/** @type {Check} */
const isNumber = value => Number.isInteger(value) && 0 <= Number(value) && Number(value) < LAST;
/** @type {Check} */
const isString = value => typeof value === 'string';
/** @type {Check} */
const isTruth = value => typeof value === 'boolean';
/** @type {Check} */
const isTag = value => typeof value === 'string' && contents.has(value);
/** @type {Check} */
const isName = value => typeof value === 'string' && /^[a-z][a-z0-9-]*$/.test(value);
/** @type {(is: Check) => Check} */
const orNull = is => value => value === null || is(value);

/** @type {Check} */
function areAttributes(value) {
  if (typeof value !== 'object' || value === null || Array.isArray(value)) return false;
  return Object.entries(value).every(([name, given]) => isName(name) && isString(given));
}

/**
 * The members of each operation after its name.
 * @type {Map<unknown, [name: string, is: Check][]>}
 */
const members = new Map([
  ['create', [
    ['id', isNumber], ['key', isNumber], ['tag', isTag], ['attributes', areAttributes],
    ['text', orNull(isString)], ['ending', isTruth],
  ]],
  ['place', [['parent', isNumber], ['child', isNumber], ['before', orNull(isNumber)]]],
  ['drop', [['id', isNumber]]],
  ['text', [['id', isNumber], ['text', isString]]],
  ['attr', [['id', isNumber], ['name', isName], ['value', orNull(isString)]]],
  ['break', [['id', isNumber], ['ending', isTruth]]],
]);

/**
 * What is wrong with a value that should be an operation, whatever tree it is for; null if nothing is.
 * @param {unknown} value
 * @returns {string | null}
 */
export function formFault(value) {
  if (!Array.isArray(value)) return 'an operation is a list';
  const wanted = members.get(value[0]);
  if (!wanted) return 'there is no operation of that name';
  if (value.length !== wanted.length + 1) return `it has ${wanted.length + 1} members`;
  const wrong = wanted.find(([, is], index) => !is(value[index + 1]));
  return wrong ? `its ${wrong[0]} is none` : null;
}

/**
 * An operation in a message. It isn't written as JSON as a whole: what comes from elsewhere may be long, and deep.
 * @param {unknown} value
 */
export function shown(value) {
  return Array.isArray(value) ? `[${value.slice(0, 7).map(shownMember).join(',')}]` : shownMember(value);
}

/** @param {unknown} member */
function shownMember(member) {
  if (Array.isArray(member)) return '[..]';
  if (typeof member === 'string') return JSON.stringify(member.length > SHOWN ? `${member.slice(0, SHOWN)}..` : member);
  return typeof member === 'object' && member !== null ? '{..}' : String(member);
}
