// What JSON has no value for, and what a line of JSON is refused for before its form is looked at.

const DEEPEST = 127; // lists and objects in each other
const HALF = /[\ud800-\udfff]/u; // by `u` whole pairs are one character, which is none of these

/**
 * What is wrong with the first value that can't be in a line, whatever its form is; null if there is none. The path
 * gets the names and indexes on the way to it. A member that is undefined isn't there, as in `JSON.stringify`.
 * @param {unknown} value
 * @param {(string | number)[]} path
 * @returns {string | null}
 */
export function jsonProblem(value, path) {
  switch (typeof value) {
    case 'string': return HALF.test(value) ? 'there is half a surrogate pair in it' : null;
    case 'boolean': return null;
    case 'number': return Number.isFinite(value) ? null : `JSON has no ${value}`;
    case 'object': return value === null ? null : problemWithin(value, path);
    default: return `JSON has no ${typeof value}`;
  }
}

/**
 * @param {object} value
 * @param {(string | number)[]} path
 */
function problemWithin(value, path) {
  if (path.length === DEEPEST) return `it nests deeper than ${DEEPEST}`;
  const members = /** @type {Record<string, unknown>} */ (value);
  if (typeof members.toJSON === 'function') return 'it has a toJSON, which may make anything of it';
  if (Array.isArray(value)) return problemInList(value, path);
  const kind = kindOf(value);
  return kind === 'Object' ? problemInMembers(members, path) : `JSON has no ${kind}`;
}

/**
 * What an object is: `Object`, or a class that the language defines, also that of another window.
 * @param {object} value
 */
function kindOf(value) {
  if (Object.getPrototypeOf(value) === Object.prototype) return 'Object';
  return Object.prototype.toString.call(value).slice('[object '.length, -1);
}

/**
 * @param {unknown[]} list
 * @param {(string | number)[]} path
 */
function problemInList(list, path) {
  for (let index = 0; index < list.length; index++) {
    path.push(index);
    const problem = jsonProblem(list[index], path);
    if (problem !== null) return problem;
    path.pop();
  }
  return null;
}

/**
 * @param {Record<string, unknown>} members
 * @param {(string | number)[]} path
 */
function problemInMembers(members, path) {
  for (const name of Object.keys(members)) {
    if (members[name] === undefined) continue;
    path.push(name);
    const problem = HALF.test(name) ? 'there is half a surrogate pair in the name' : jsonProblem(members[name], path);
    if (problem !== null) return problem;
    path.pop();
  }
  return null;
}
