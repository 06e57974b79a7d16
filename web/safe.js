// What of a document may reach a page: addresses by their schemes, and declarations of a style by their properties.

/** Schemes that run nothing where a link is followed. */
export const safeSchemes = Object.freeze(['http', 'https', 'mailto', 'tel']);

/** Properties that change how a text looks, and neither where it stands nor what is fetched. */
export const safeProperties = Object.freeze([
  'color', 'background-color', 'font-size', 'font-family', 'font-weight', 'font-style', 'text-decoration',
  'text-transform', 'letter-spacing', 'line-height', 'vertical-align', 'white-space',
]);

/** Functions that make a color or a number. Others can fetch an address, as `url` and `image-set` do. */
const functions = new Set([
  'rgb', 'rgba', 'hsl', 'hsla', 'hwb', 'lab', 'lch', 'oklab', 'oklch', 'color', 'color-mix',
  'calc', 'min', 'max', 'clamp',
]);

/** What browsers drop in addresses, and more: then a scheme is found wherever they find one. */
const dropped = /[\u0000-\u0020\u007f-\u00a0\u00ad\u200b-\u200f\u2028-\u202f\u2060-\u206f\u3000\ufeff]+/g;

/** Characters written by their names, which an address isn't read with, but may be once it is printed as HTML. */
const named = /&(?:#(?:\d|x[0-9a-f])|colon\b|tab\b|newline\b|nbsp\b|sol\b)/i;

/** What escapes, comments, nests, or begins another declaration or an expression. */
const unplain = /[\\@{}<>:\u0000-\u0008\u000a-\u001f\u007f]|\/\*|\*\/|expression|javascript/i;

/**
 * Whether an address may be followed: it is relative, a fragment, or has one of the schemes.
 * @param {string} address
 * @param {readonly string[]} [schemes]
 * @returns {boolean}
 */
export function isSafeAddress(address, schemes = safeSchemes) {
  if (typeof address !== 'string') throw new TypeError('an address is a string');
  const [head] = address.replace(dropped, '').split(/[/\\?]/, 1);
  if (named.test(head)) return false;
  const [first] = head.split('#', 1);
  const colon = first.indexOf(':');
  if (colon < 0) return true;
  const scheme = first.slice(0, colon).toLowerCase();
  return schemes.some(listed => listed.toLowerCase() === scheme);
}

/**
 * The declarations of a style that set one of the properties, as they are written. The others are dropped, and so are
 * those that fetch something, or that browsers of any age read in another way.
 * @param {string} style
 * @param {readonly string[]} [names]
 * @returns {string}
 */
export function safeStyle(style, names = safeProperties) {
  if (typeof style !== 'string') throw new TypeError('a style is a string');
  const listed = new Set(names.map(name => name.toLowerCase()));
  // Each `;` ends one, even in quotes: half a string is dropped below, so no text can become a declaration.
  return style.split(';').map(declaration => declaration.trim()).filter(text => isSafe(text, listed)).join('; ');
}

/**
 * @param {string} declaration
 * @param {Set<string>} listed
 */
function isSafe(declaration, listed) {
  const colon = declaration.indexOf(':');
  if (colon < 0 || !listed.has(declaration.slice(0, colon).trimEnd().toLowerCase())) return false;
  const value = declaration.slice(colon + 1);
  return value.trim() !== '' && !unplain.test(value) && areClosed(value) && areKnown(value);
}

/**
 * Whether quotes and brackets end that begin.
 * @param {string} value
 */
function areClosed(value) {
  let depth = 0;
  for (const piece of value.match(/"[^"]*"|'[^']*'|["'()[\]]/g) ?? []) {
    if (piece === '(') depth += 1;
    else if (piece === ')') depth -= 1;
    else if (piece.length === 1) return false;
    if (depth < 0) return false;
  }
  return depth === 0;
}

/**
 * Whether all functions are known. Quotes make no difference here: a name in a string is refused too.
 * @param {string} value
 */
function areKnown(value) {
  return value.split('(').slice(0, -1).map(before => before.trimEnd()).every(before => {
    let at = before.length;
    while (at > 0 && /[\w\u0080-\uffff-]/.test(before[at - 1])) at -= 1;
    const word = before.slice(at).toLowerCase();
    return word === '' || functions.has(word);
  });
}
