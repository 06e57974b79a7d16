// A page for tests: jsdom's, where Debian's node-jsdom or another one is there (NODE_PATH=/usr/share/nodejs), or null.
import { createRequire } from 'node:module';

function windowOrNull() {
  try {
    const { JSDOM } = createRequire(import.meta.url)('jsdom'); // unlike `import`, it looks where NODE_PATH says
    return new JSDOM('<!DOCTYPE html><main></main>', { url: 'https://example.org/' }).window;
  } catch (error) {
    if (error.code !== 'MODULE_NOT_FOUND') throw error;
    return null;
  }
}

export const window = windowOrNull();
export const skip = !window && 'there is no jsdom: NODE_PATH=/usr/share/nodejs finds that of the package node-jsdom';

const names = { '&': '&amp;', '<': '&lt;', '>': '&gt;', '"': '&quot;' };
const escaped = text => text.replace(/[&<>"]/g, character => names[character]);

/** An element as HTML, written as the core writes it. */
export function htmlOf(node) {
  if (node.nodeType === 3) return escaped(node.data);
  const attributes = [...node.attributes].map(({ name, value }) => ` ${name}="${escaped(value)}"`).sort();
  const start = `<${node.localName}${attributes.join('')}>`;
  if (['br', 'hr'].includes(node.localName)) return start;
  return `${start}${[...node.childNodes].map(htmlOf).join('')}</${node.localName}>`;
}

/** HTML without its attributes. */
export const bare = html => html.replace(/ [a-z-]+="[^"]*"/g, '');

/** All attributes of an element and those below it. */
export function attributesIn(element) {
  return [element, ...element.querySelectorAll('*')].flatMap(({ localName, attributes }) => (
    [...attributes].map(({ name, value }) => [localName, name, value])
  ));
}
