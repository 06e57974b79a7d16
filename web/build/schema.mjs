// Makes web/schema-data.js of examples/lines.schema.json. Run it after a change there: node web/build/schema.mjs
//
// It takes the words of JSON Schema that this schema uses, and stops at any other one, so that no rule is lost.
import { readFileSync, writeFileSync } from 'node:fs';
import { fileURLToPath, pathToFileURL } from 'node:url';

const WIDTH = 120;
const LAYERS = ['hub', 'ask']; // forms of lines that need the program
const SAID = ['$schema', 'title', 'description']; // words that ask for nothing

const schemaFile = fileURLToPath(new URL('../../examples/lines.schema.json', import.meta.url));
const dataFile = fileURLToPath(new URL('../schema-data.js', import.meta.url));

/** The text of the file that is made. */
export function dataText() {
  const schema = parsed(readFileSync(schemaFile, 'utf8'));
  const names = schema.anyOf.map(nameOf);
  const definitions = Object.entries(schema.$defs).map(([name, node]) => [name, compact(node)]);
  for (const [name, node] of definitions) shorten(node, definitions.filter(([other]) => other !== name));
  const table = {
    forms: names.filter(name => !LAYERS.includes(name)),
    layers: names.filter(name => LAYERS.includes(name)),
    definitions: Object.fromEntries(definitions),
  };
  return [
    '// What a line may be. web/build/schema.mjs makes this file of examples/lines.schema.json: change nothing here.',
    '',
    "/** @type {import('./schema-types.js').Table} */",
    `export const table = ${written(table, '', 'export const table = '.length + 1)};`,
    '',
  ].join('\n');
}

/** The schema. A number that JavaScript doesn't have is the next one below that it has. */
function parsed(text) {
  return JSON.parse(text.replace(/(?<=: )\d{16,}/g, '"$&"'), (_, value) => {
    return typeof value === 'string' && /^\d{16,}$/.test(value) ? atMost(BigInt(value)) : value;
  });
}

/** The greatest number up to a limit, if it is written as JavaScript writes it. */
function atMost(limit) {
  const words = new BigUint64Array(1), numbers = new Float64Array(words.buffer);
  numbers[0] = Number(limit);
  while (BigInt(JSON.stringify(numbers[0])) > limit) words[0] -= 1n;
  return numbers[0];
}

const nameOf = ({ $ref }) => $ref.slice('#/$defs/'.length);

const makers = {
  $ref: ({ $ref }) => nameOf({ $ref }),
  anyOf: ({ anyOf }) => anyOf.map(compact),
  const: node => node.const === true ? 'true' : { words: [node.const] },
  enum: node => ({ words: node.enum }),
  null: () => 'null',
  boolean: () => 'boolean',
  string: ({ maxLength }) => maxLength === undefined ? 'string' : { longest: maxLength },
  integer: ({ minimum, maximum }) => ({ least: minimum, most: maximum }),
  array: ({ items, prefixItems }) => items ? { list: compact(items) } : { row: prefixItems.map(compact) },
  object: ({ properties, required, additionalProperties }) => ({
    has: Object.fromEntries(Object.entries(properties).map(([name, node]) => [name, compact(node)])),
    ...required?.length && { needs: required },
    ...additionalProperties !== false && { isOpen: true },
  }),
};

/** The words beside `type` that each maker reads. */
const read = {
  string: ['maxLength'],
  integer: ['minimum', 'maximum'],
  array: ['items', 'prefixItems', 'minItems', 'maxItems'],
  object: ['properties', 'required', 'additionalProperties'],
};

/** A node of the schema as a node of the table. */
function compact(node) {
  if (node === true) return 'any';
  const maker = node.type ?? ['$ref', 'anyOf', 'const', 'enum'].find(word => word in node);
  const other = Object.keys(node).find(word => ![...SAID, 'type', maker, ...read[maker] ?? []].includes(word));
  if (!makers[maker] || other) throw new Error(`a node has what isn't known here: ${other ?? JSON.stringify(node)}`);
  const count = node.prefixItems?.length;
  if (node.minItems !== count || node.maxItems !== count) throw new Error(`a list's length: ${JSON.stringify(node)}`);
  return makers[maker](node);
}

/** Takes out of a definition of members those that it shares with another, which it is `like`. */
function shorten(node, others) {
  const textsOf = ({ has = {} }) => Object.entries(has).map(member => JSON.stringify(member));
  const texts = textsOf(node);
  const like = others.find(([, other]) => {
    const shared = other.like ? [] : textsOf(other);
    return shared.length > 1 && shared.length < texts.length && shared.every(text => texts.includes(text));
  });
  if (!like || 'needs' in node || 'needs' in like[1]) return;
  for (const name of Object.keys(like[1].has)) delete node.has[name];
  node.like = like[0];
}

/** A value as JavaScript, with `before` characters in front of it, and one behind. What fits in a line is in one. */
function written(value, indent, before) {
  const whole = inOneLine(value);
  if (indent.length + before + whole.length + 1 <= WIDTH || typeof value !== 'object') return whole;
  const deeper = `${indent}  `;
  const rows = [];
  for (const [name, item] of Object.entries(value)) {
    const head = Array.isArray(value) ? '' : `${name}: `;
    const text = `${head}${written(item, deeper, head.length)},`;
    const together = `${rows.at(-1)} ${text}`;
    const isTogether = rows.length > 0 && !together.includes('\n') && deeper.length + together.length <= WIDTH;
    if (isTogether) rows[rows.length - 1] = together;
    else rows.push(text);
  }
  const [open, close] = Array.isArray(value) ? '[]' : '{}';
  return [open, ...rows.map(row => deeper + row), indent + close].join('\n');
}

function inOneLine(value) {
  if (typeof value === 'string') return `'${value}'`;
  if (Array.isArray(value)) return `[${value.map(inOneLine).join(', ')}]`;
  if (typeof value !== 'object') return String(value);
  const members = Object.entries(value).map(([name, item]) => `${name}: ${inOneLine(item)}`);
  return members.length > 0 ? `{ ${members.join(', ')} }` : '{}';
}

if (import.meta.url === pathToFileURL(process.argv[1]).href) writeFileSync(dataFile, dataText());
