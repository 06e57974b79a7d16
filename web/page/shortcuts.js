// Keys of commands, written as `Mod+Shift+X`: Mod is the command key on Apple's machines, and Control elsewhere.

const isApple = /Mac|iPhone|iPad/.test(navigator.platform);

/**
 * What the parts are called on a button's label.
 * @type {Record<string, string>}
 */
const names = isApple
  ? { Mod: '⌘', Shift: '⇧', Alt: '⌥' }
  : { Mod: 'Ctrl', Shift: 'Shift', Alt: 'Alt' };

/**
 * Keys as a reader knows them.
 * @param {string} keys
 */
export function shown(keys) {
  return keys.split('+').map(part => names[part] ?? part).join(isApple ? '' : '+');
}

/**
 * Keys as the attribute `aria-keyshortcuts` has them.
 * @param {string} keys
 */
export function spoken(keys) {
  return keys.replace('Mod', isApple ? 'Meta' : 'Control');
}

/**
 * Whether Mod is held. On Apple's machines Control and a letter are other commands, such as to the start of a line.
 * @param {KeyboardEvent} event
 */
export function isModHeld({ ctrlKey, metaKey }) {
  return isApple ? metaKey && !ctrlKey : ctrlKey && !metaKey;
}

/**
 * Whether an event is that of the keys. Digits are found by their place, since with Shift each layout has other signs.
 * @param {KeyboardEvent} event
 * @param {string} keys
 */
export function isPressed(event, keys) {
  const held = keys.split('+'), last = held.pop() ?? '';
  if (isModHeld(event) !== held.includes('Mod') || event.shiftKey !== held.includes('Shift')) return false;
  if (event.altKey !== held.includes('Alt') || event.getModifierState('AltGraph')) return false;
  return /^\d$/.test(last) ? event.code === `Digit${last}` : nameOf(event) === last.toLowerCase();
}

/**
 * Signs in the names of keys, by the keys' places.
 * @type {Record<string, string>}
 */
const signs = { BracketLeft: '[', BracketRight: ']', Backslash: '\\', Comma: ',', Period: '.' };

/**
 * What a key is called. Those of Cyrillic, Greek or other letters are called as on a Latin layout, by their places.
 * @param {KeyboardEvent} event
 */
function nameOf({ key, code }) {
  if (key.length > 1 || key <= '~') return key.toLowerCase();
  return signs[code] ?? /^Key([A-Z])$/.exec(code)?.[1].toLowerCase() ?? key.toLowerCase();
}
