// Elements of the page: all are of HTML.

/**
 * The nearest element that a selector fits, from an event's target upwards.
 * @param {EventTarget | null} target
 * @param {string} selector
 */
export function closest(target, selector) {
  return target instanceof Element ? /** @type {HTMLElement | null} */ (target.closest(selector)) : null;
}

/**
 * The elements below another one that a selector fits.
 * @param {Element} element
 * @param {string} selector
 */
export function all(element, selector) {
  return Array.from(/** @type {NodeListOf<HTMLElement>} */ (element.querySelectorAll(selector)));
}
