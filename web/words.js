// The words of the command line, as the program `lexical` takes them.

const flags = ['view', 'hub', 'outline'];
/** @type {Record<string, [least: number, most: number]>} */
const numbers = { delay: [0, 86_400_000], generate: [1, 20_000], seed: [0, 4_294_967_295] };

/**
 * What the words ask for: options of an editor, or the word that needs the program; null if the words aren't taken.
 * @param {string[]} words
 * @returns {{ delay: number, view: boolean } | { needs: string } | null}
 */
export function optionsOf(words) {
  const found = foundIn(words);
  if (found === null) return null;
  const isGenerated = found.has('generate');
  if (isGenerated !== found.has('seed')) return null;
  const others = ['hub', 'outline', 'generate'].filter(name => found.has(name));
  if (others.length > 1 || (isGenerated && found.has('view'))) return null;
  if (others.length > 0) return { needs: `--${others[0]}` };
  return { delay: found.get('delay') ?? 1000, view: found.has('view') };
}

/**
 * The options by their names, with their numbers: each stands at most once. A lone `--` at the end says nothing.
 * @param {string[]} words
 * @returns {Map<string, number> | null}
 */
function foundIn(words) {
  const found = new Map();
  const rest = words.at(-1) === '--' ? words.slice(0, -1) : words.slice();
  while (rest.length > 0) {
    const word = /** @type {string} */ (rest.shift());
    const [, name, value] = /^--([a-z]+)(?:=(.*))?$/s.exec(word) ?? [];
    if (name === undefined || found.has(name)) return null;
    if (flags.includes(name) && value === undefined) found.set(name, 1);
    else if (Object.hasOwn(numbers, name)) found.set(name, numberFrom(value ?? rest.shift(), numbers[name]));
    else return null;
    if (found.get(name) === null) return null;
  }
  return found;
}

/**
 * @param {string | undefined} text
 * @param {[least: number, most: number]} range
 */
function numberFrom(text, [least, most]) {
  if (text === undefined || !/^\+?[0-9]+$/.test(text)) return null;
  const number = Number(text);
  return least <= number && number <= most ? number : null;
}
