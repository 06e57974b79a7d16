// What a line may be, as a tree of nodes that is ready to be asked, made of the table.
import { table } from './schema-data.js';

/** @typedef {import('./schema-types.js').Entry} Entry */
/** @typedef {import('./schema-types.js').Members} Members */
/** @typedef {import('./schema-types.js').Node} Node */
/** @typedef {import('./schema-types.js').Single} Single */
/** @typedef {import('./schema-types.js').Choice} Choice */
/** @typedef {import('./schema-types.js').Form} Form */
/** @typedef {import('./schema-types.js').List} List */
/** @typedef {import('./schema-types.js').Named} Named */
/** @typedef {import('./schema-types.js').Text} Text */

/** @type {Record<string, Node>} */
const plain = {
  any: { type: 'any', asked: 'a value' },
  null: { type: 'null', asked: 'null' },
  true: { type: 'boolean', isTrue: true, asked: 'true' },
  boolean: { type: 'boolean', isTrue: false, asked: 'true or false' },
  string: { type: 'string', words: null, longest: Infinity, asked: 'a string' },
};

/** @type {Map<string, Node>} */
const linked = new Map(Object.entries(plain));

/**
 * The node of a definition. It is there before it is filled, so that steps may have steps in them.
 * @param {string} name
 * @returns {Node}
 */
function nodeOf(name) {
  const known = linked.get(name);
  if (known) return known;
  const node = /** @type {Node} */ ({});
  linked.set(name, node);
  return Object.assign(node, link(table.definitions[name]));
}

/**
 * @param {Entry} entry
 * @returns {Node}
 */
function link(entry) {
  if (typeof entry === 'string') return nodeOf(entry);
  if ('words' in entry) return textWith(entry.words, Infinity, inWords(entry.words.map(quoted)));
  if ('longest' in entry) return textWith(null, entry.longest, `a string of up to ${entry.longest} UTF-16 code units`);
  if ('least' in entry) return { type: 'number', ...entry, asked: rangeInWords(entry) };
  if ('list' in entry) return { type: 'array', item: link(entry.list), row: [], asked: 'a list' };
  if ('row' in entry) return rowOf(entry.row.map(link));
  if ('has' in entry) return formOf(entry);
  return choiceOf(entry);
}

/**
 * @param {string[] | null} words
 * @param {number} longest
 * @param {string} asked
 * @returns {Text}
 */
function textWith(words, longest, asked) {
  return { type: 'string', words: words && new Set(words), longest, asked };
}

/**
 * @param {Node[]} row
 * @returns {List}
 */
function rowOf(row) {
  const asked = `a list of ${row.length} (${row.map(node => node.asked).join('; ')})`;
  return { type: 'array', item: null, row, asked };
}

/**
 * @param {Members} entry
 * @returns {Form}
 */
function formOf(entry) {
  const members = new Map(membersOf(entry).map(([name, of]) => [name, link(of)]));
  return { type: 'object', needs: entry.needs ?? [], members, isOpen: entry.isOpen ?? false, asked: 'an object' };
}

/**
 * @param {Members} entry
 * @returns {[name: string, of: Entry][]}
 */
function membersOf({ has, like }) {
  const shared = like ? membersOf(/** @type {Members} */ (table.definitions[like])) : [];
  return [...shared, ...Object.entries(has)];
}

/**
 * @param {Entry[]} entries
 * @returns {Choice}
 */
function choiceOf(entries) {
  const singles = entries.map(link).flatMap(node => node.type === 'choice' ? singlesOf(node) : [node]);
  const forms = singles.flatMap(node => node.type === 'object' ? [node] : []);
  const named = new Map(forms.map(form => [form.needs[0], namedBy(form.needs[0], forms)]));
  const of = new Map(singles.map(node => [node.type, node]));
  return { type: 'choice', of, named, asked: inWords([...new Set(singles.flatMap(askedOf))]) };
}

/** @param {Single} node */
function askedOf(node) {
  return node.type === 'string' && node.words ? [...node.words].map(quoted) : [node.asked];
}

/**
 * @param {Choice} choice
 * @returns {Single[]}
 */
function singlesOf({ of, named }) {
  const others = [...of.values()].filter(node => node.type !== 'object');
  return [...others, ...[...named.values()].flatMap(({ forms }) => forms)];
}

/**
 * The forms that a member names.
 * @param {string} name
 * @param {Form[]} all
 * @returns {Named}
 */
function namedBy(name, all) {
  const forms = all.filter(form => form.needs[0] === name);
  const words = new Map();
  for (const form of forms) {
    const node = form.members.get(name);
    if (node?.type === 'string') node.words?.forEach(word => words.set(word, form));
  }
  return { forms, words, asked: inWords([...words.keys()].map(quoted)) };
}

/** @param {string} word */
function quoted(word) {
  return JSON.stringify(word);
}

/** @param {{ least: number, most: number }} range */
function rangeInWords({ least, most }) {
  return `a whole number from ${least}${most > Number.MAX_SAFE_INTEGER ? '' : ` to ${most}`}`;
}

/**
 * @param {string[]} words
 * @param {string} last
 */
export function inWords(words, last = 'or') {
  return words.length < 2 ? words.join() : `${words.slice(0, -1).join(', ')} ${last} ${words.at(-1)}`;
}

/** What a line may be, without those that need the program, and with them. */
export const lineNode = choiceOf(table.forms);
export const layersNode = choiceOf([...table.forms, ...table.layers]);
