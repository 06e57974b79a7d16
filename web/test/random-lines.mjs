// Random lines that fit the schema, and the same with one thing changed. A seed gives the same ones each time.
import { lines, resolved, schema } from './schema.mjs';

const DEEPEST = 12; // deeper lists are empty
const GREATEST = 2 ** 64 - 2048; // the greatest number below 2 to the power of 64 that JavaScript has

const texts = ['', 'a', 'zz', '0', '@anchor', '@block', '@payload', 'x'.repeat(257), '\u{1f600}', '/~"\\\n\u0000'];
const payloads = ['back', 'forward', 'bold', 'bullet', 'before', 'after', '{"nodes":[]}', 'undo', 'insert-text', 'cut'];
const strange = ['__proto__', 'constructor', 'toString', 'toJSON', 'length', 'kind', 'zz', '', '0', 'a/b~c'];
const numbers = [
  -1, 0, 1, 0.5, 4, 5, 50, 51, 1000, 1001, 65535, 65536, 1000000, 1000001, 1200000, 1200001,
  2 ** 32 - 1, 2 ** 32, 2 ** 53 - 1, 2 ** 53, 2 ** 63, GREATEST, 2 ** 64, 1e21, 1e300,
];
const names = [...new Set(namesIn(schema)), ...strange];

function namesIn(node) {
  if (typeof node !== 'object' || node === null) return [];
  return [...Object.keys(node.properties ?? {}), ...Object.values(node).flatMap(namesIn)];
}

/** Numbers below a limit, one after another. */
export function seeded(seed) {
  let state = seed;
  return limit => {
    state = (Math.imul(1664525, state) + 1013904223) >>> 0;
    return Math.floor(state / 2 ** 32 * limit);
  };
}

const oneOf = (random, list) => list[random(list.length)];
const isObject = value => typeof value === 'object' && value !== null && !Array.isArray(value);

/** A line that fits. Forms with more within come more often. */
export const randomLine = random => fittingValue(oneOf(random, forms), random, 0);

const often = { update: 6, rule_line: 6, listener_line: 2 };
const forms = lines.anyOf.flatMap(form => Array(often[nameOf(form)] ?? 1).fill(form));

function nameOf({ $ref }) {
  return $ref.slice('#/$defs/'.length);
}

function fittingValue(reference, random, depth) {
  const node = resolved(reference);
  if (node === true) return anyValue(random, 2);
  if (node.anyOf) return fittingValue(oneOf(random, node.anyOf), random, depth);
  if ('const' in node) return node.const;
  if (node.enum) return oneOf(random, node.enum);
  switch (node.type) {
    case 'null': return null;
    case 'boolean': return random(2) === 0;
    case 'integer': return numberIn(node, random);
    case 'string': return oneOf(random, [...texts, ...payloads]).slice(0, node.maxLength);
    case 'array': return listFor(node, random, depth).map(item => fittingValue(item, random, depth + 1));
    default: return objectFor(node, random, depth);
  }
}

function numberIn({ minimum, maximum }, random) {
  const most = Math.min(maximum, GREATEST);
  return oneOf(random, [minimum, most, Math.min(most, minimum + random(4)), minimum + random(most - minimum)]);
}

function listFor({ items, prefixItems }, random, depth) {
  return prefixItems ?? Array(depth > DEEPEST ? 0 : random(4)).fill(items);
}

function objectFor({ properties, required = [], additionalProperties }, random, depth) {
  const chosen = Object.keys(properties).filter(name => required.includes(name) || random(3) === 0);
  const members = chosen.map(name => [name, fittingValue(properties[name], random, depth + 1)]);
  if (additionalProperties !== false && random(8) === 0) members.push([oneOf(random, strange), anyValue(random, 2)]);
  if (random(4) === 0) members.reverse();
  return Object.fromEntries(members);
}

function anyValue(random, depth) {
  const count = depth > 0 ? random(3) : 0;
  const inner = () => anyValue(random, depth - 1);
  switch (random(7)) {
    case 0: return null;
    case 1: return random(2) === 0;
    case 2: return oneOf(random, numbers);
    case 3: return oneOf(random, [...texts, ...payloads]);
    case 4: return Array.from({ length: count }, inner);
    default: return Object.fromEntries(Array.from({ length: count }, () => [oneOf(random, names), inner()]));
  }
}

/** What may be done to the value at a place of a line: `undefined` drops it. */
const changes = {
  dropped: () => undefined,
  added: (value, random) => withOneMore(value, random),
  another: (value, random) => anyValue(random, 2),
  nothing: () => null,
  number: (value, random) => oneOf(random, numbers),
  half: (value, random) => oneOf(random, ['\ud800', 'a\udc00b', '\udc00\ud800', { '\ud800': 1 }]),
  within: (value, random) => oneOf(random, [[value], { [oneOf(random, strange.slice(1))]: value }, [value, value]]),
  deep: (value, random) => Array.from({ length: 110 + random(20) }).reduce(inner => [inner], value),
  inner: value => typeof value === 'object' && value !== null ? Object.values(value)[0] : value,
};

function withOneMore(value, random) {
  if (Array.isArray(value)) return [...value, anyValue(random, 1)];
  return isObject(value) ? withMembers(value, [[oneOf(random, names), anyValue(random, 1)]]) : anyValue(random, 2);
}

const withMembers = (value, more) => Object.fromEntries([...Object.entries(value), ...more]);

/** The line with one thing changed at a random place. Most changes make it one that doesn't fit. */
export function changed(line, random) {
  const [whole, ...places] = placesIn(line, []);
  const path = random(50) === 0 ? whole : oneOf(random, places);
  if (path.length > 0 && random(8) === 0) return renamedAt(line, path, oneOf(random, names));
  const change = changes[oneOf(random, Object.keys(changes))];
  return path.length === 0 ? change(line, random) ?? null : changedAt(line, path, value => change(value, random));
}

function placesIn(value, path) {
  if (typeof value !== 'object' || value === null) return [path];
  return [path, ...Object.entries(value).flatMap(([name, inner]) => placesIn(inner, [...path, name]))];
}

function changedAt(value, [name, ...rest], change) {
  const entries = Object.entries(value).flatMap(([key, inner]) => {
    const next = key !== name ? inner : rest.length > 0 ? changedAt(inner, rest, change) : change(inner);
    return next === undefined ? [] : [[key, next]];
  });
  return Array.isArray(value) ? entries.map(([, inner]) => inner) : Object.fromEntries(entries);
}

function renamedAt(line, path, name) {
  const renamed = holder => {
    const entries = Object.entries(holder).map(([key, inner]) => [key === path.at(-1) ? name : key, inner]);
    return Object.fromEntries(entries);
  };
  return path.length === 1 ? renamed(line) : changedAt(line, path.slice(0, -1), renamed);
}
