// Lines that examples/lines.schema.json takes, and lines that it refuses. All choices and members of each definition are
// among them. Lines that need the program are left out, and numbers that are out of range.
import { readFileSync } from 'node:fs';
import { join } from 'node:path';
import { top } from './helper.mjs';

export const schema = JSON.parse(readFileSync(join(top, 'examples', 'lines.schema.json'), 'utf8'));
export const lines = { anyOf: schema.anyOf.filter(({ $ref }) => !['#/$defs/hub', '#/$defs/ask'].includes($ref)) };
export const resolved = node => node.$ref ? resolved(schema.$defs[node.$ref.slice('#/$defs/'.length)]) : node;
const replaced = (row, at, value) => row.map((item, index) => index === at ? value : item);
const without = (object, name) => Object.fromEntries(Object.entries(object).filter(([member]) => member !== name));

export const fittingLines = () => written(fitting(lines, new Set()));
export const misfittingLines = () => written(misfitting(lines, new Set()));
const written = values => [...new Set(values.map(value => JSON.stringify(value)))];

/** A short value that fits: an object has only the members that it must have. */
function least(reference) {
  const node = resolved(reference);
  if (node === true) return null;
  if (node.anyOf) return least(node.anyOf[0]);
  if ('const' in node) return node.const;
  if (node.enum) return node.enum[0];
  switch (node.type) {
    case 'integer': return node.minimum;
    case 'array': return (node.prefixItems ?? []).map(least);
    case 'object': return Object.fromEntries((node.required ?? []).map(name => [name, least(node.properties[name])]));
    default: return { null: null, string: 'a', boolean: true }[node.type];
  }
}

/** Whether a definition is met again: it has been shown then, and steps in steps come to an end. */
function isMetAgain({ $ref }, met) {
  const isMet = met.has($ref);
  if ($ref) met.add($ref);
  return isMet;
}

/** Values that fit. */
function fitting(reference, met) {
  const node = resolved(reference), first = least(node);
  if (isMetAgain(reference, met)) return [first];
  if (node === true) return [first, 1, 'a', [], {}];
  if (node.anyOf) return node.anyOf.flatMap(choice => fitting(choice, met));
  if (node.enum) return node.enum;
  switch (node.type) {
    case 'integer': return [first, node.maximum];
    case 'boolean': return [true, false];
    case 'array': return [first, ...inLists(node, of => fitting(of, met))];
    case 'object': return [first, ...inObjects(node, of => fitting(of, met))];
    default: return [first];
  }
}

/** Lists of one value; or those with another value at one place, if each place has its own. */
function inLists(node, valuesOf) {
  if (node.items) return valuesOf(node.items).map(value => [value]);
  return node.prefixItems.flatMap((of, index) => valuesOf(of).map(value => replaced(least(node), index, value)));
}

/** Objects with one more member, or another value of one. */
function inObjects(node, valuesOf) {
  const first = least(node);
  return Object.entries(node.properties).flatMap(([name, of]) => valuesOf(of).map(value => ({ ...first, [name]: value })));
}

/** Values that don't fit, each for one reason. */
function misfitting(reference, met) {
  const node = resolved(reference);
  const others = isMetAgain(reference, met) ? [] : misfittingWithin(node, of => misfitting(of, met));
  return [null, true, 1, 'zz', [], {}, ...others].filter(value => !fits(node, value));
}

function misfittingWithin(node, valuesOf) {
  const first = least(node);
  if (node.anyOf) return node.anyOf.flatMap(valuesOf);
  if (node.items) return inLists(node, valuesOf);
  if (node.prefixItems) return [first.slice(1), [...first, 1], ...inLists(node, valuesOf)];
  if (node.type !== 'object') return [];
  return [{ ...first, zz: 1 }, ...Object.keys(first).map(name => without(first, name)), ...inObjects(node, valuesOf)];
}

function fits(reference, value) {
  const node = resolved(reference);
  if (node === true) return true;
  if (node.anyOf) return node.anyOf.some(choice => fits(choice, value));
  if ('const' in node) return node.const === value;
  if (node.enum) return node.enum.includes(value);
  switch (node.type) {
    case 'null': return value === null;
    case 'integer': return Number.isInteger(value);
    case 'array': return Array.isArray(value) && fitsList(node, value);
    case 'object': return Object.prototype.toString.call(value) === '[object Object]' && fitsObject(node, value);
    default: return typeof value === node.type;
  }
}

function fitsList({ items, prefixItems }, value) {
  if (items) return value.every(item => fits(items, item));
  return value.length === prefixItems.length && value.every((item, index) => fits(prefixItems[index], item));
}

function fitsObject({ required = [], properties, additionalProperties = true }, value) {
  const fitsMember = ([name, of]) => name in properties ? fits(properties[name], of) : additionalProperties;
  return required.every(name => name in value) && Object.entries(value).every(fitsMember);
}
