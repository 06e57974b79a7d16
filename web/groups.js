// Groups of blocks: what host 0 has is put into plain elements of some blocks each, so that a browser has few boxes to
// go over, and can leave out whole groups that are out of sight. The tree of hosts knows nothing of them.

/** The class of a group, for style sheets. */
const NAME = 'blocks';

export class Groups {
  #inside;
  #most;
  /** @type {WeakSet<Node>} */
  #all = new WeakSet();

  /**
   * @param {Element} inside the element that the groups are in
   * @param {number} most how many blocks are appended to a group; one that has twice as many is parted
   */
  constructor(inside, most) {
    if (!Number.isInteger(most) || most < 1) throw new TypeError('groups have a number of blocks, from 1 on');
    this.#inside = inside;
    this.#most = most;
  }

  /** @param {Node | null} node */
  has(node) {
    return node !== null && this.#all.has(node);
  }

  /**
   * Puts a block before another one; where that is in no group, to the end.
   * @param {Element} block
   * @param {Element | null} before
   * @param {Element | null} ending what stays behind all groups
   */
  put(block, before, ending) {
    const around = before && before.parentNode;
    const group = around && this.has(around) ? around : this.#last(ending);
    group.insertBefore(block, group === around ? before : null);
    if (group.childNodes.length > 2 * this.#most) this.#part(group);
  }

  /**
   * Looks after what a block has left: an empty group goes, and a small one joins a neighbour that is small too.
   * @param {Node | null} group
   */
  tidy(group) {
    if (group === null || !this.has(group)) return;
    if (group.firstChild === null) /** @type {Element} */ (group).remove();
    else if (!this.#join(group.previousSibling, group)) this.#join(group, group.nextSibling);
  }

  /**
   * The group to which a block is appended.
   * @param {Element | null} ending
   */
  #last(ending) {
    const behind = ending?.parentNode === this.#inside ? ending : null;
    const last = behind ? behind.previousSibling : this.#inside.lastChild;
    return last && this.has(last) && last.childNodes.length < this.#most ? last : this.#make(behind);
  }

  /** @param {Node | null} before */
  #make(before) {
    const group = this.#inside.ownerDocument.createElement('div');
    group.setAttribute('class', NAME);
    this.#all.add(group);
    return this.#inside.insertBefore(group, before);
  }

  /** @param {Node} group */
  #part(group) {
    const rest = this.#make(group.nextSibling);
    for (const block of Array.from(group.childNodes).slice(this.#most)) rest.appendChild(block);
  }

  /**
   * @param {Node | null} one
   * @param {Node | null} other
   */
  #join(one, other) {
    if (one === null || other === null || !this.has(one) || !this.has(other)) return false;
    if (one.childNodes.length + other.childNodes.length > this.#most) return false;
    for (const block of Array.from(other.childNodes)) one.appendChild(block);
    /** @type {Element} */ (other).remove();
    return true;
  }
}
