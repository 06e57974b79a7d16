// What tags and inline styles say about a text: its format, its white space, how a block is aligned.

/** Formats of a text, by bits. */
export const BOLD = 1, ITALIC = 2, STRIKE = 4, UNDERLINE = 8, CODE = 16, SUB = 32, SUPER = 64, HIGHLIGHT = 128;

/** @typedef {ReadonlyMap<string, string>} Styles lower-case names and values of an inline style */
/** @typedef {'' | 'left' | 'center' | 'right' | 'justify' | 'end'} Align */

const formatsByTag = new Map([
  ...['b', 'strong'].map(name => /** @type {const} */ ([name, BOLD])),
  ...['i', 'em', 'cite', 'dfn', 'var'].map(name => /** @type {const} */ ([name, ITALIC])),
  ...['s', 'strike', 'del'].map(name => /** @type {const} */ ([name, STRIKE])),
  ...['u', 'ins'].map(name => /** @type {const} */ ([name, UNDERLINE])),
  ...['code', 'kbd', 'samp', 'tt', 'pre', 'listing', 'xmp'].map(name => /** @type {const} */ ([name, CODE])),
  ...['sub'].map(name => /** @type {const} */ ([name, SUB])),
  ...['sup'].map(name => /** @type {const} */ ([name, SUPER])),
  ...['mark'].map(name => /** @type {const} */ ([name, HIGHLIGHT])),
]);

/** @type {Styles} */
const noStyles = new Map();

/**
 * The declarations of a style attribute. Word's are in here too, such as `mso-list`.
 * @param {string | undefined} style
 * @returns {Styles}
 */
export function stylesOf(style) {
  if (!style) return noStyles;
  const styles = new Map();
  for (const declaration of style.toLowerCase().split(';')) {
    const colon = declaration.indexOf(':');
    if (colon < 0) continue;
    styles.set(declaration.slice(0, colon).trim(), declaration.slice(colon + 1).replace('!important', '').trim());
  }
  return styles;
}

/**
 * The format within an element, of that around it.
 * @param {number} around
 * @param {string} name
 * @param {Styles} styles
 * @param {{ isBlock: boolean, isInLink: boolean }} where
 */
export function formatWithin(around, name, styles, { isBlock, isInLink }) {
  const tagged = withRaised(around, formatsByTag.get(name) ?? 0);
  if (styles.size === 0) return tagged;
  let format = weighed(tagged, styles.get('font-weight'));
  const slant = styles.get('font-style') ?? '';
  if (/^(italic|oblique)/.test(slant)) format |= ITALIC;
  else if (slant === 'normal') format &= ~ITALIC;
  format = decorated(format, styles, isInLink);
  const raised = styles.get('vertical-align');
  if (!isBlock && raised === 'sub') format = withRaised(format, SUB);
  else if (!isBlock && raised === 'super') format = withRaised(format, SUPER);
  else if (!isBlock && raised === 'baseline') format &= ~(SUB | SUPER);
  return !isBlock && isHighlighted(styles) ? format | HIGHLIGHT : format;
}

/**
 * A text is below the line or above it, not both.
 * @param {number} around
 * @param {number} added
 */
const withRaised = (around, added) => (added & (SUB | SUPER) ? around & ~(SUB | SUPER) : around) | added;

/**
 * @param {number} format
 * @param {string | undefined} weight
 */
function weighed(format, weight) {
  if (weight === undefined) return format;
  if (/^bold/.test(weight) || Number(weight) >= 600) return format | BOLD;
  return weight === 'normal' || weight === 'lighter' || Number(weight) > 0 ? format & ~BOLD : format;
}

/**
 * An underline of a link is how links look, so it is no format there unless a tag says it.
 * @param {number} format
 * @param {Styles} styles
 * @param {boolean} isInLink
 */
function decorated(format, styles, isInLink) {
  const lines = `${styles.get('text-decoration') ?? ''} ${styles.get('text-decoration-line') ?? ''}`;
  let found = format;
  if (!isInLink && /\bunderline\b/.test(lines)) found |= UNDERLINE;
  if (/\bline-through\b/.test(lines)) found |= STRIKE;
  return found;
}

const plainColors = /^(black|white|silver|gainsboro|whitesmoke|snow|ivory|(light|dark|dim)?gr[ae]y)$/;

/**
 * Whether a background is a marker's: pages and dark themes have white, black and greys behind all of their text.
 * @param {Styles} styles
 */
function isHighlighted(styles) {
  if (styles.has('mso-highlight')) return styles.get('mso-highlight') !== 'none';
  const color = backgroundOf(styles);
  if (color === null || plainColors.test(color)) return false;
  const parts = channelsOf(color);
  if (parts === null) return /^[a-z]+$/.test(color);
  return parts.alpha > 0 && Math.max(...parts.rgb) - Math.min(...parts.rgb) >= 24;
}

/**
 * @param {string} color
 * @returns {{ rgb: number[], alpha: number } | null}
 */
function channelsOf(color) {
  const long = /^#([0-9a-f]{2})([0-9a-f]{2})([0-9a-f]{2})$/.exec(color);
  if (long) return { rgb: long.slice(1).map(part => parseInt(part, 16)), alpha: 1 };
  const short = /^#([0-9a-f])([0-9a-f])([0-9a-f])$/.exec(color);
  if (short) return { rgb: short.slice(1).map(part => 17 * parseInt(part, 16)), alpha: 1 };
  const called = /^rgba?\(([\d., /%]+)\)$/.exec(color);
  const numbers = called?.[1].split(/[, /]+/).map(Number.parseFloat) ?? [];
  return numbers.length < 3 ? null : { rgb: numbers.slice(0, 3), alpha: numbers[3] ?? 1 };
}

/**
 * The color of a background, null if it has none.
 * @param {Styles} styles
 * @returns {string | null}
 */
export function backgroundOf(styles) {
  const color = styles.get('background-color') ?? styles.get('background') ?? '';
  if (!/^(#[0-9a-f]{3,8}|[a-z]{3,24}|(rgb|hsl)a?\([\d., /%a-z]{1,40}\))$/.test(color)) return null;
  return /^(transparent|none|inherit|initial|unset|revert|auto|currentcolor)$/.test(color) ? null : color;
}

/** @param {Styles} styles */
export const isHidden = styles => styles.get('display') === 'none' || styles.get('mso-hide') === 'all';

/**
 * How white space is kept within an element: not at all, its line ends only, or all of it.
 * @param {'normal' | 'lines' | 'all'} around
 * @param {string} name
 * @param {Styles} styles
 */
export function spacesWithin(around, name, styles) {
  const value = styles.get('white-space') ?? (/^(pre|listing|xmp|plaintext|textarea)$/.test(name) ? 'pre' : '');
  if (/^(pre|pre-wrap|break-spaces)$/.test(value)) return 'all';
  if (value === 'pre-line') return 'lines';
  return /^(normal|nowrap|initial)$/.test(value) || name === 'table' ? 'normal' : around;
}

/**
 * @param {Align} around
 * @param {string} name
 * @param {Styles} styles
 * @param {string} attribute
 * @returns {Align}
 */
export function alignWithin(around, name, styles, attribute) {
  if (name === 'table') return '';
  const value = styles.get('text-align') ?? (name === 'center' ? 'center' : attribute.toLowerCase());
  if (/^(left|center|right|justify|end)$/.test(value)) return /** @type {Align} */ (value);
  return value === 'start' || value === 'initial' ? '' : around;
}

/** How wide a step of indentation is. */
export const STEP = 40;
const sizes = new Map(Object.entries({ px: 1, pt: 4 / 3, in: 96, cm: 96 / 2.54, mm: 96 / 25.4, em: 16, rem: 16 }));

/**
 * Steps of indentation, of a paragraph or a heading.
 * @param {Styles} styles
 */
export function indentOf(styles) {
  const names = ['padding-inline-start', 'margin-inline-start', 'margin-left', 'padding-left'];
  const widths = names.map(name => {
    const [, number, unit] = /^([\d.]+)([a-z]+)$/.exec(styles.get(name) ?? '') ?? [];
    return Number(number ?? 0) * (sizes.get(unit) ?? 0);
  });
  const steps = Math.round(Math.max(...widths) / STEP);
  return Number.isFinite(steps) ? Math.min(steps, 65_535) : 0;
}
