"""What runs in the page, for browser.py."""

# An element as HTML, as the core writes it, but for what the page adds by itself: attributes of the document's element,
# groups of its blocks, and `dir="auto"` of these.
WRITE = r"""
const escaped = text => text.replace(/[&<>"]/g, c => ({ '&': '&amp;', '<': '&lt;', '>': '&gt;', '"': '&quot;' })[c]);
const isTold = (node, name) => node.parentNode?.localName !== 'main' && (name !== 'dir' || node.dir !== 'auto');
function htmlOf(node) {
  if (node.nodeType === Node.TEXT_NODE) return escaped(node.data);
  const names = node.getAttributeNames().filter(name => isTold(node, name)).sort();
  const attributes = names.map(name => ` ${name}="${escaped(node.getAttribute(name))}"`);
  const inside = [...node.childNodes].map(htmlOf).join('');
  if (node.classList.contains('blocks')) return inside;
  const start = `<${node.localName}${attributes.join('')}>`;
  return ['br', 'hr'].includes(node.localName) ? start : `${start}${inside}</${node.localName}>`;
}
"""

# What disagrees: the hosts with the core's view, the page with its hosts, what the browser has selected with the core.
FAULTS = WRITE + r"""
const [done] = arguments, { page } = window, found = [];
(async () => {
  const view = (await page.ask({ show: 'view' })).view, html = page.view.hosts.html();
  if (html !== view) found.push(`the hosts are ${html}\n    the core has  ${view}`);
  const fresh = new page.view.constructor(document.createElement('div'));
  fresh.apply(page.view.hosts.fold());
  const shown = htmlOf(page.view.element), drawn = htmlOf(fresh.element);
  if (shown !== drawn) found.push(`the page has  ${shown}\n    it should be  ${drawn}`);
  const selection = (await page.ask({ show: 'selection' })).selection;
  const isHere = page.view.element.contains(getSelection().anchorNode);
  const placesOf = given => given && [given.anchor, given.focus, given.table ?? null];
  const told = JSON.stringify(placesOf(selection)), here = JSON.stringify(placesOf(page.selected));
  if (isHere && selection && selection.kind !== 'nodes' && told !== here) {
    found.push(`selected are ${here}, and should be ${told}`);
  }
})().then(() => done(found), error => done([String(error)]));
"""

HTML = WRITE + "return htmlOf(page.view.element).replaceAll(' data-lexical-text=\"true\"', '');"

# Selects from an offset of the first text that has the words to an offset of one that has others; offsets count from
# where the words begin.
SELECT = r"""
const [from, start, to, end] = arguments;
function place(words, offset) {
  const walker = document.createTreeWalker(page.view.element, NodeFilter.SHOW_TEXT);
  while (walker.nextNode()) {
    const at = walker.currentNode.data.indexOf(words);
    if (at >= 0) return [walker.currentNode, at + offset];
  }
  throw new Error('no text has ' + words);
}
getSelection().setBaseAndExtent(...place(from, start), ...place(to, end));
"""

PASTE = r"""
const data = new DataTransfer();
for (const [type, text] of Object.entries(arguments[0])) data.setData(type, text);
page.view.element.dispatchEvent(new ClipboardEvent('paste', { clipboardData: data, bubbles: true, cancelable: true }));
"""

COPY = r"""
const data = new DataTransfer();
page.view.element.dispatchEvent(new ClipboardEvent('copy', { clipboardData: data, bubbles: true, cancelable: true }));
return Object.fromEntries([...data.types].map(type => [type, data.getData(type)]));
"""

# Runs before the page does: its clock goes on by what a person does, not by how long that takes.
CLOCK = r"""
let moment = 1700000000000;
for (const name of ['keydown', 'mousedown']) addEventListener(name, () => { moment += 300; }, true);
Date.now = () => moment;
"""

NOTICES = r"""
window.notices = [];
page.on('notice', text => notices.push(text));
"""
