// Files: a document is opened from JSON, HTML, Markdown or plain text, and saved as one of the first three.
import { ContentError } from '../content-error.js';
import { edgeOf } from '../hosts-order.js';
import { htmlFromDocument, sliceFromHtml } from '../html.js';
import { documentFromMarkdown, markdownFromDocument } from '../markdown.js';
import { menu } from './menu.js';
import { isPressed } from './shortcuts.js';
import { documentOf, documentOfText } from './slices.js';
import { titleOf } from './titles.js';

/** @typedef {import('./page.js').AnyPage} Page */
/** @typedef {import('../replies.js').Document} Document */
/** @typedef {{ text: string, type: string, lost?: string[] }} Written */
/**
 * The documents of a browser's storage. One that keeps nothing opens none.
 * @typedef {{ others(): { id: string, at: number, title: string }[], open?(id?: string): void, forget?(): void }} Kept
 */

const MOST_KEPT = 8; // documents of the browser's storage that the menu shows
const all = ['new', 'open', 'json', 'html', 'md', 'delete'];

/** @type {Record<string, (document: Document, title: string) => Written>} */
const writers = {
  json: document => ({ text: `${JSON.stringify(document)}\n`, type: 'application/json' }),
  html: (document, title) => ({ text: htmlFileOf(document, title), type: 'text/html' }),
  md(document) {
    const { markdown, lost } = markdownFromDocument(document);
    return { text: markdown, type: 'text/markdown', lost };
  },
};

/** @type {Record<string, (text: string) => Promise<{ document: Document, lost?: string[] }>>} */
const readers = {
  json: async text => ({ document: documentOfJson(text) }),
  html: async text => ({ document: documentOf((await sliceFromHtml(text)).nodes) }),
  md: documentFromMarkdown,
  txt: async text => ({ document: documentOfText(text) }),
};

/** @type {Record<string, keyof readers>} */
const endings = { json: 'json', htm: 'html', html: 'html', xhtml: 'html', md: 'md', markdown: 'md', txt: 'txt' };

/**
 * Puts a menu of files into an element.
 * @param {Page} page
 * @param {HTMLElement} [element]
 * @param {Kept} [kept]
 * @param {string[]} [offered] what there is in the menu, of `all`
 */
export function files(page, element, kept, offered = all) {
  const chooser = document.createElement('input');
  chooser.type = 'file';
  chooser.accept = Object.keys(endings).map(ending => `.${ending}`).join();
  chooser.addEventListener('change', () => {
    if (chooser.files?.[0]) read(page, chooser.files[0]);
    chooser.value = ''; // the same file can be chosen again
  });
  /** @type {Record<string, () => void>} */
  const commands = {
    new: () => begin(page, kept),
    open: () => chooser.click(),
    json: () => save(page, 'json'),
    html: () => save(page, 'html'),
    md: () => save(page, 'md'),
    delete: () => forget(page, kept),
  };
  for (const name of all) if (!offered.includes(name)) delete commands[name];
  if (element) element.append(...menuOf(commands, kept));
  document.addEventListener('keydown', event => {
    const name = isPressed(event, 'Mod+S') ? 'json' : isPressed(event, 'Mod+O') ? 'open' : null;
    if (name === null || !commands[name]) return;
    event.preventDefault();
    commands[name]();
  });
  return { read: (/** @type {File} */ file) => read(page, file) };
}

/**
 * @param {Record<string, () => void>} commands
 * @param {Kept} [kept]
 */
function menuOf(commands, kept) {
  const button = document.createElement('button');
  button.type = 'button';
  button.className = 'tool files';
  button.textContent = 'File';
  const others = (kept?.others() ?? []).slice(0, MOST_KEPT);
  const groups = [
    [{ name: 'new', label: 'New' }, { name: 'open', label: 'Open…', keys: 'Mod+O' }],
    [
      { name: 'json', label: 'Save as JSON', keys: 'Mod+S' },
      { name: 'html', label: 'Save as HTML' },
      { name: 'md', label: 'Save as Markdown' },
    ],
    kept?.forget ? [{ name: 'delete', label: 'Delete this document…' }] : [],
  ].map(group => group.filter(({ name }) => commands[name]));
  const named = others.map(({ id, title, at }) => ({ name: `kept ${id}`, label: labelOf(title, at) }));
  const items = [...groups, named].filter(group => group.length > 0).flatMap(group => [null, ...group]).slice(1);
  const choose = (/** @type {string} */ name) => {
    if (name.startsWith('kept ')) kept?.open?.(name.slice('kept '.length));
    else commands[name]();
  };
  return [button, menu(button, { label: 'File', items, choose })];
}

/**
 * @param {string} title
 * @param {number} at
 */
function labelOf(title, at) {
  const day = new Date(at).toLocaleDateString(undefined, { day: 'numeric', month: 'short' });
  return `${title.slice(0, 40) || 'Untitled'}, ${day}`;
}

/**
 * An empty document: one of its own where documents are kept, and else in the place of this one.
 * @param {Page} page
 * @param {Kept} [kept]
 */
function begin(page, kept) {
  if (kept?.open) kept.open();
  else load(page, documentOf([]));
}

/**
 * @param {Page} page
 * @param {Kept} [kept]
 */
function forget(page, kept) {
  const title = titleOf(page) || 'Document';
  if (confirm(`Delete “${title}” from this browser? This can’t be undone.`)) kept?.forget?.();
}

/**
 * Opens a file in the place of what is there.
 * @param {Page} page
 * @param {File} file
 */
async function read(page, file) {
  const ending = file.name.toLowerCase().split('.').at(-1) ?? '';
  const kind = endings[ending] ?? (file.type.startsWith('text/') ? 'txt' : null);
  if (kind === null) {
    page.notify(`“${file.name}” can’t be opened: it is neither JSON, HTML, Markdown nor plain text.`);
    return;
  }
  try {
    const { document, lost = [] } = await readers[kind](await file.text());
    const isOpen = await load(page, document);
    if (isOpen) page.notify(`“${file.name}” is open. Undo brings back what was here.${without(lost)}`);
  } catch (error) {
    page.notify(whyUnread(file.name, error));
  }
}

/**
 * @param {string} name
 * @param {unknown} error
 */
function whyUnread(name, error) {
  if (error instanceof SyntaxError) return `“${name}” isn’t a document in JSON.`;
  if (!(error instanceof ContentError)) return `“${name}” can’t be read.`;
  if (error.code === 'parser') return 'Markdown can’t be read here: the parser markdown-it isn’t in this page.';
  return `“${name}” is too large, or nests too deep.`;
}

/** @param {string[]} lost */
const without = lost => lost.length > 0 ? ` Left out: ${lost.join('; ')}.` : '';

/**
 * Loads a document, and puts the caret at its start: whether it was taken.
 * @param {Page} page
 * @param {unknown} loaded
 */
async function load(page, loaded) {
  const [reply] = await page.act({ load: loaded, tags: ['history-push'] }, null);
  if (!reply || reply.refused) return false;
  const [first] = page.view.hosts.root.children;
  const start = edgeOf(first, true);
  await page.act({ update: [{ select: { anchor: start, focus: start } }] }, null);
  page.focus();
  return true;
}

/**
 * A document as this page, or Lexical, writes one.
 * @param {string} text
 * @returns {Document}
 */
function documentOfJson(text) {
  const value = JSON.parse(text);
  if (Array.isArray(value?.nodes)) return documentOf(value.nodes);
  return value?.editorState ?? value;
}

/**
 * Has the browser save the document as a file.
 * @param {Page} page
 * @param {string} kind
 */
async function save(page, kind) {
  const { state } = await page.ask({ show: 'state' });
  const title = titleOf(page) || 'Document';
  const { text, type, lost = [] } = writers[kind](/** @type {Document} */ (state), title);
  const link = document.createElement('a');
  link.href = URL.createObjectURL(new Blob([text], { type }));
  link.download = `${fileName(title)}.${kind}`;
  link.click();
  setTimeout(() => URL.revokeObjectURL(link.href), 60_000); // once the browser has read it
  if (lost.length > 0) page.notify(`Saved.${without(lost)}`);
  page.focus();
}

/** @param {string} title */
const fileName = title => title.replace(/[^\p{L}\p{N}]+/gu, '-').replace(/^-|-$/g, '').toLowerCase() || 'document';

/**
 * @param {Document} document
 * @param {string} title
 */
function htmlFileOf(document, title) {
  const escaped = title.replaceAll('&', '&amp;').replaceAll('<', '&lt;');
  return `<!DOCTYPE html>\n<meta charset="utf-8">\n<title>${escaped}</title>\n${htmlFromDocument(document)}\n`;
}
