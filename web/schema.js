// Says what is wrong with a line before it is sent, by path: the core answers no more than `BadCommand`.
//
//   problemsOf({ update: [{ select: { anchor: [2, -1, 'text'], focus: [2, 0, 'text'] } }] })
//   // [{ path: '/update/0/select/anchor/1', message: 'a whole number from 0 is asked for' }]
//
// A line without problems is never refused for its form. What this can't tell is in schema.d.ts.
import { jsonProblem } from './schema-json.js';
import { inWords, layersNode, lineNode } from './schema-nodes.js';

/** @typedef {import('./lines.js').Line} Line */
/** @typedef {import('./schema.js').Problem} Problem */
/** @typedef {import('./schema.js').SchemaOptions} SchemaOptions */
/** @typedef {import('./schema-types.js').Node} Node */
/** @typedef {import('./schema-types.js').Choice} Choice */
/** @typedef {import('./schema-types.js').Named} Named */
/** @typedef {import('./schema-types.js').Form} Form */
/** @typedef {import('./schema-types.js').List} List */
/** @typedef {Record<string, unknown>} Members */

/**
 * What is wrong with a line, the most helpful first: nothing, if it fits.
 * @param {unknown} line
 * @param {SchemaOptions} options
 * @returns {Problem[]}
 */
export function problemsOf(line, { layers = false } = {}) {
  if (typeof layers !== 'boolean') throw new TypeError('layers is true or false');
  const found = new Found();
  const problem = jsonProblem(line, found.path);
  if (problem !== null) found.add(problem);
  else check(layers ? layersNode : lineNode, line, found);
  return found.problems;
}

/**
 * Throws a TypeError with the first problem of a line that has any.
 * @param {unknown} line
 * @param {SchemaOptions} [options]
 * @returns {asserts line is Line}
 */
export function assertLine(line, options) {
  const [problem] = problemsOf(line, options);
  if (problem) throw new TypeError(problem.path === '' ? problem.message : `${problem.path}: ${problem.message}`);
}

/** The problems so far, and where the next would be. */
class Found {
  /** @type {(string | number)[]} */
  path = [];
  /** @type {Problem[]} */
  problems = [];

  /** @param {string} message */
  add(message) {
    const path = this.path.map(name => `/${String(name).replace(/~/g, '~0').replace(/\//g, '~1')}`).join('');
    this.problems.push({ path, message });
  }

  /**
   * @param {string | number} name
   * @param {string} message
   */
  addAt(name, message) {
    this.path.push(name);
    this.add(message);
    this.path.pop();
  }
}

/**
 * @param {Node} node
 * @param {unknown} value
 * @param {Found} found
 */
function check(node, value, found) {
  if (node.type === 'choice') checkChoice(node, value, found);
  else if (node.type === 'object' && isMembers(value)) checkForm(node, value, found);
  else if (node.type === 'array' && Array.isArray(value)) checkList(node, value, found);
  else if (!isPlain(node, value)) found.add(`${node.asked} is asked for`);
}

/**
 * Whether a value that has no others in it is what a node asks for.
 * @param {Node} node
 * @param {unknown} value
 */
function isPlain(node, value) {
  switch (node.type) {
    case 'any': return true;
    case 'null': return value === null;
    case 'boolean': return typeof value === 'boolean' && (value || !node.isTrue);
    case 'number': return Number.isInteger(value) && node.least <= Number(value) && Number(value) <= node.most;
    case 'string': return typeof value === 'string' && value.length <= node.longest && (node.words?.has(value) ?? true);
    default: return false;
  }
}

/**
 * @param {unknown} value
 * @returns {value is Members}
 */
function isMembers(value) {
  return typeof value === 'object' && value !== null && !Array.isArray(value);
}

/**
 * @param {Choice} choice
 * @param {unknown} value
 * @param {Found} found
 */
function checkChoice({ of, named, asked }, value, found) {
  const single = of.get(typeOf(value));
  if (!single) found.add(`${asked} is asked for`);
  else if (single.type === 'object') checkNamed(named, /** @type {Members} */ (value), found);
  else check(single, value, found);
}

/**
 * The name of a value's type in nodes.
 * @param {unknown} value
 */
function typeOf(value) {
  if (value === null) return 'null';
  return Array.isArray(value) ? 'array' : typeof value;
}

/**
 * Checks an object by the form that one of its members names. Among several it is the form that it fits best.
 * @param {Map<string, Named>} named
 * @param {Members} value
 * @param {Found} found
 */
function checkNamed(named, value, found) {
  const names = namesIn(value);
  /** @type {Form[]} */
  const forms = [];
  for (const name of names) {
    const group = named.get(name);
    if (group) forms.push(...formsOf(group, value[name]));
  }
  if (forms.length === 0) {
    const asked = [...named.keys()];
    found.add(asked.length === 1 ? missing(asked[0]) : `one of the members ${inWords(asked)} is asked for`);
    return;
  }
  const form = forms.length === 1 ? forms[0] : nearestOf(forms, names);
  const [name] = form.needs;
  const { words, asked } = /** @type {Named} */ (named.get(name));
  if (words.size === 0 || words.get(value[name]) === form) checkForm(form, value, found, names);
  else found.addAt(name, `${asked} is asked for`);
}

/**
 * The forms that a member may name by its value. Where that is no word of any, the first stands for all.
 * @param {Named} named
 * @param {unknown} word
 */
function formsOf({ words, forms }, word) {
  return words.size === 0 ? forms : [words.get(word) ?? forms[0]];
}

/**
 * The form of which a value lacks the fewest members and has the fewest others; of equal ones the first.
 * @param {Form[]} forms
 * @param {string[]} names
 */
function nearestOf(forms, names) {
  const faults = forms.map(form => missingIn(form, names).length + othersIn(form, names).length);
  return forms[faults.indexOf(Math.min(...faults))];
}

/**
 * The names of the members that are written: one that is undefined isn't.
 * @param {Members} value
 */
function namesIn(value) {
  return Object.keys(value).filter(name => value[name] !== undefined);
}

/**
 * @param {Form} form
 * @param {string[]} names
 */
function missingIn({ needs }, names) {
  return needs.filter(name => !names.includes(name));
}

/**
 * @param {Form} form
 * @param {string[]} names
 */
function othersIn({ members, isOpen }, names) {
  return isOpen ? [] : names.filter(name => !members.has(name));
}

/**
 * First come names that may not be there, since a wrong name is why another is missing.
 * @param {Form} form
 * @param {Members} value
 * @param {Found} found
 */
function checkForm(form, value, found, names = namesIn(value)) {
  const others = othersIn(form, names), only = others.length > 0 ? onlyOf(form) : '';
  for (const name of others) found.addAt(name, only);
  for (const name of missingIn(form, names)) found.add(missing(name));
  for (const name of names) {
    const node = form.members.get(name);
    if (!node) continue;
    found.path.push(name);
    check(node, value[name], found);
    found.path.pop();
  }
}

/** @param {string} name */
function missing(name) {
  return `the member ${name} is missing`;
}

/** @param {Form} form */
function onlyOf({ members }) {
  return members.size === 0 ? 'no member may stand here' : `only ${inWords([...members.keys()], 'and')} may stand here`;
}

/**
 * @param {List} list
 * @param {unknown[]} value
 * @param {Found} found
 */
function checkList({ item, row, asked }, value, found) {
  if (item === null && value.length !== row.length) {
    found.add(`${asked} is asked for`);
    return;
  }
  for (let index = 0; index < value.length; index++) {
    found.path.push(index);
    check(item ?? row[index], value[index], found);
    found.path.pop();
  }
}
