// Each block stands as its first letters ask for, from the left or from the right, unless the document says which.
import { isBlock } from '../hosts-order.js';

/**
 * @param {import('../dom.js').View} view
 * @param {readonly import('../replies.js').Operation[]} [ops] what has changed, if that isn't all
 */
export function showDirections(view, ops) {
  if (!ops) {
    for (const host of view.hosts) showDirection(view, host);
    return;
  }
  for (const [name, id, attribute] of ops) {
    const isTold = name === 'create' || (name === 'attr' && attribute === 'dir');
    const host = isTold ? view.hosts.get(id) : undefined; // what is dropped in the same commit isn't there
    if (host) showDirection(view, host);
  }
}

/**
 * @param {import('../dom.js').View} view
 * @param {import('../hosts.js').Host} host
 */
function showDirection(view, host) {
  if (isBlock(host) && !host.attributes.has('dir')) view.elementOf(host).setAttribute('dir', 'auto');
}
