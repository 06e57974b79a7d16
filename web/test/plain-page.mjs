// As much of a page as a view needs: elements and texts in a tree, and a selection. It refuses what a browser refuses.

class PageNode {
  parentNode = null;
  childNodes = [];

  constructor(ownerDocument, nodeType) {
    this.ownerDocument = ownerDocument;
    this.nodeType = nodeType;
  }

  get firstChild() {
    return this.childNodes[0] ?? null;
  }

  get lastChild() {
    return this.childNodes.at(-1) ?? null;
  }

  get nextSibling() {
    return this.#beside(1);
  }

  get previousSibling() {
    return this.#beside(-1);
  }

  #beside(step) {
    const siblings = this.parentNode?.childNodes ?? [];
    return siblings[siblings.indexOf(this) + step] ?? null;
  }

  appendChild(node) {
    return this.insertBefore(node, null);
  }

  insertBefore(node, before) {
    if (before !== null && before.parentNode !== this) throw new Error('the node before which to insert is elsewhere');
    node.remove();
    this.childNodes.splice(before === null ? this.childNodes.length : this.childNodes.indexOf(before), 0, node);
    node.parentNode = this;
    return node;
  }

  remove() {
    const siblings = this.parentNode?.childNodes;
    if (siblings) siblings.splice(siblings.indexOf(this), 1);
    this.parentNode = null;
  }
}

class PageElement extends PageNode {
  attributes = new Map();

  constructor(ownerDocument, localName) {
    super(ownerDocument, 1);
    this.localName = localName;
  }

  setAttribute(name, value) {
    this.attributes.set(name, value);
  }

  removeAttribute(name) {
    this.attributes.delete(name);
  }

  replaceChildren(...nodes) {
    for (const node of [...this.childNodes]) node.remove();
    for (const node of nodes) this.appendChild(node);
  }
}

class PageText extends PageNode {
  constructor(ownerDocument, data) {
    super(ownerDocument, 3);
    this.data = data;
  }

  replaceData(offset, count, data) {
    this.data = this.data.slice(0, offset) + data + this.data.slice(offset + count);
  }
}

/** What the browser has selected; `changes` counts how often it was set. */
export class PageSelection {
  anchorNode = null;
  anchorOffset = 0;
  focusNode = null;
  focusOffset = 0;
  changes = 0;

  setBaseAndExtent(anchorNode, anchorOffset, focusNode, focusOffset) {
    for (const [node, offset] of [[anchorNode, anchorOffset], [focusNode, focusOffset]]) {
      if (offset > (node.data ?? node.childNodes).length) throw new RangeError(`there is no offset ${offset}`);
    }
    Object.assign(this, { anchorNode, anchorOffset, focusNode, focusOffset, changes: this.changes + 1 });
  }

  removeAllRanges() {
    const { changes } = this;
    Object.assign(this, { anchorNode: null, anchorOffset: 0, focusNode: null, focusOffset: 0, changes: changes + 1 });
  }
}

/** A document with nothing in it. */
export function newPage() {
  const selection = new PageSelection();
  return {
    createElement(name) {
      return new PageElement(this, name);
    },
    createTextNode(data) {
      return new PageText(this, data);
    },
    getSelection: () => selection,
  };
}
