// Characters of a text written so that Markdown reads them as they are.

/** @typedef {(what: string) => void} Lose */

const white = /^[\t\n\f\r \u00a0\u1680\u2000-\u200a\u202f\u205f\u3000]$/;
const word = /^[\p{L}\p{N}\p{M}]$/u;
const mark = /^[!-/:-@[-`{-~\p{P}]$/u;
const special = /[\\*_[\]<~&!\n\r\f]/g;

/**
 * White space to any parser.
 * @param {string} character
 */
export const isWhite = character => white.test(character);

/**
 * Letters, digits and what belongs to them: all that is no punctuation to any parser.
 * @param {string} character
 */
export const isWord = character => word.test(character);

/**
 * Punctuation to any parser: they differ about symbols.
 * @param {string} character
 */
export const isMark = character => mark.test(character);

/**
 * A character by its number. Controls have no such form, and become U+FFFD.
 * @param {string} character
 * @param {Lose} lose
 */
export function numbered(character, lose) {
  const code = /** @type {number} */ (character.codePointAt(0));
  const isNone = (code < 32 && !/[\t\n\f\r]/.test(character)) || (code >= 127 && code < 160)
    || (code & 0xfffe) === 0xfffe || (code >= 0xfdd0 && code <= 0xfdef);
  if (!isNone) return `&#${code};`;
  lose('control characters beside formats or ends of lines');
  return '&#65533;';
}

/**
 * A text without what begins or ends something inline, but for backticks. `wholeLine` sees to the ends of lines.
 * @param {string} text
 * @param {boolean} beforeLink whether a link follows, which `!` would make an image
 */
export function escaped(text, beforeLink) {
  return text.replace(special, (character, /** @type {number} */ at) => {
    const next = text[at + 1] ?? '';
    if (/[\n\r\f]/.test(character)) return `&#${character.charCodeAt(0)};`;
    if (character === '_' && /[a-z0-9]/i.test(text[at - 1] ?? '') && /[a-z0-9]/i.test(next)) return '_';
    if (character === '&' && !/[#a-z]/i.test(next)) return '&';
    if (character === '!' && !(next === '[' || (next === '' && beforeLink))) return '!';
    return `\\${character}`;
  });
}

/**
 * Code between as many backticks as it has nowhere.
 * @param {string} code
 * @param {Lose} lose
 */
export function codeSpan(code, lose) {
  if (/[\n\r]/.test(code)) lose('line ends in code');
  const text = code.replace(/\r\n?|\n/g, ' ');
  const lengths = new Set((text.match(/`+/g) ?? []).map(run => run.length));
  let length = 1;
  while (lengths.has(length)) length += 1;
  const pad = /^`|`$|^ [^]+ $/.test(text) ? ' ' : '';
  return `${'`'.repeat(length)}${pad}${text}${pad}${'`'.repeat(length)}`;
}

/**
 * An address, and a title if there is one, as they follow a link's text.
 * @param {string} address
 * @param {string | null} title
 */
export function destination(address, title) {
  const quoted = (/** @type {string} */ text, /** @type {RegExp} */ marks) => text.replace(marks, '\\$&')
    .replace(/[\n\r\t\f]|^ | $/g, character => `&#${character.charCodeAt(0)};`);
  const plain = /^[^\s<>()\\&\u0000-\u0020\u007f]+$/.test(address);
  const target = plain ? address : `<${quoted(address, /[<>\\]|&(?=[#a-z])/gi)}>`;
  return title === null ? `(${target})` : `(${target} "${quoted(title, /["\\]|&(?=[#a-z])/gi)}")`;
}

/** What begins a block at the start of a line, and where in it a backslash takes that away. */
const starts = [
  /^(?=#{1,6}(?:[ \t]|$))/, /^(?=>)/, /^(?=[-+](?:[ \t]|$))/, /^(?=-[-\s]*$)/, /^(?==+\s*$)/, /^(?=[-|:][-|:\s]*$)/,
  /^(\d{1,9})(?=[.)](?:[ \t]|$))/,
];

/**
 * A line that keeps the white space at its ends.
 * @param {string} line
 * @param {Lose} lose
 */
export const withEdges = (line, lose) => line.replace(/^\s|\s$/gu, space => numbered(space, lose));

/**
 * A line that begins no block, and keeps the white space at its ends.
 * @param {string} line
 * @param {Lose} lose
 */
export function wholeLine(line, lose) {
  const text = withEdges(line, lose);
  const start = starts.find(form => form.test(text));
  return start === undefined ? text : text.replace(start, '$&\\');
}
