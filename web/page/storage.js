// The document in the browser's storage: as the log of its lines, so that a reload has everything, history and all.
import { linesAnew } from './anew.js';
import { documentsIn, Log } from './log.js';
import { titleOf } from './titles.js';

/** @typedef {import('./page.js').Page} Page */
/** @typedef {import('../lines.js').Line} Line */

const LONG = 2_000_000; // characters of a log that begins anew once the page is left
const PAUSE = 200; // milliseconds until new lines are written
const LONG_PAUSE = 2000; // the same where the whole document has to be
const HOLD = 20_000; // milliseconds after which a tab says again that it holds its document
const here = 'vaultsatin'; // under which a tab keeps its name and its document over a reload

/**
 * Opens the document that this tab had, or the one that changed last. `log` has its lines, for `Page.open`; `keep` adds
 * what is told from then on.
 */
export function storage() {
  const store = storeHere();
  return store === null ? new Nothing() : new Kept(store);
}

/** @returns {Storage | null} */
function storeHere() {
  try {
    sessionStorage.getItem(here);
    return localStorage;
  } catch {
    return null; // the browser forbids it
  }
}

/** A name that nothing else has. */
const newName = () => `${Date.now().toString(36)}${Math.random().toString(36).slice(2, 8)}`;

/** What there is in a browser that keeps nothing. */
class Nothing {
  /** @type {Line[]} */
  log = [];

  others() {
    return [];
  }

  /** @param {Page} page */
  keep(page) {
    page.notify('This browser keeps nothing here. Save what you write as a file.');
  }
}

/** The documents that a browser keeps, and the one that this tab writes. */
class Kept {
  #store;
  #tab;
  #log;
  /** The document that this tab opens next. */
  #next;
  /** @type {Line[]} lines that aren't written yet */
  #waiting = [];
  #isChanged = false;
  /** Whether there is no room for more lines, but only for the document that they make. */
  #isFull = false;
  /** @type {ReturnType<typeof setTimeout> | null} */
  #timer = null;

  /** @param {Storage} store */
  constructor(store) {
    this.#store = store;
    const { tab = newName(), id } = JSON.parse(sessionStorage.getItem(here) ?? '{}');
    this.#tab = tab;
    forgetTab();
    const ids = id === undefined ? documentsIn(store).map(document => document.id) : [id];
    const logs = ids.map(one => new Log(store, one, tab));
    this.#log = logs.find(log => !log.isHeldElsewhere) ?? logs[0] ?? new Log(store, newName(), tab);
    this.#next = this.#log.id;
    this.#hold();
  }

  /** The lines of the document. */
  get log() {
    return this.#log.lines;
  }

  /** The other documents that are kept, the one that changed last first. */
  others() {
    return documentsIn(this.#store).filter(({ id }) => id !== this.#log.id);
  }

  /**
   * Opens another document in this tab, or a new one.
   * @param {string} [id]
   */
  open(id = newName()) {
    this.#next = id;
    location.reload();
  }

  /** Forgets the document, and opens another one. */
  forget() {
    this.#waiting = [];
    this.#isChanged = false;
    this.#log.remove();
    this.open(this.others()[0]?.id);
  }

  /**
   * Keeps what is told from here on.
   * @param {Page} page
   */
  keep(page) {
    if (this.#log.isHeldElsewhere) {
      page.notify('This document is open in another tab. What you change here becomes a copy.');
    } else if (this.#log.isAnew) {
      page.notify('This document had been changed very often: what can be undone begins here.');
    }
    if (this.#log.size === 0) this.#waiting.push(...page.begun);
    page.on('told', ({ line, reply }) => {
      if (!isToKeep(line, reply)) return;
      this.#waiting.push(line);
      this.#isChanged ||= (reply.ops?.length ?? 0) > 0; // what is only selected makes no document of a new one
      this.#timer ??= setTimeout(() => this.#write(page), this.#isFull ? LONG_PAUSE : PAUSE);
    });
    setInterval(() => this.#hold(), HOLD);
    for (const name of ['visibilitychange', 'pagehide']) {
      // The caret may have moved since the last act. The promises of this one are kept before the next listener.
      addEventListener(name, () => { page.act({ update: [] }); });
    }
    addEventListener('visibilitychange', () => {
      if (document.visibilityState === 'visible') return forgetTab();
      this.#write(page); // it may be the last moment: browsers drop tabs in the background without a word
      this.#rememberTab();
    });
    addEventListener('pagehide', () => this.#leave(page));
    addEventListener('pageshow', event => {
      if (event.persisted) location.reload(); // another tab may have had the document meanwhile
    });
  }

  /** Tells other tabs that this one writes the document. */
  #hold() {
    try {
      if (!this.#log.isHeldElsewhere) this.#log.hold();
    } catch {
      // There is no room. The next lines will tell.
    }
  }

  /** Whether there is a log already, which this tab may add to: then where the caret is belongs to it. */
  get #isToGoOn() {
    return this.#log.size > 0 && this.#log.isOurs;
  }

  /** @param {Page} page */
  #write(page) {
    if (this.#timer !== null) clearTimeout(this.#timer);
    this.#timer = null;
    if (this.#waiting.length === 0 || !this.#isChanged && !this.#isToGoOn) return;
    const lines = this.#waiting;
    this.#waiting = [];
    try {
      if (!this.#log.isOurs) this.#part(page);
      if (this.#isFull) this.#begin(page, lines);
      else this.#log.append(lines, titleOf(page));
    } catch {
      this.#makeRoom(page, lines);
    }
  }

  /**
   * Goes on in a copy, since another tab writes the document.
   * @param {Page} page
   */
  #part(page) {
    this.#log = this.#log.copy(newName(), titleOf(page));
    this.#next = this.#log.id;
  }

  /**
   * The log begins anew with the document as it is.
   * @param {Page} page
   * @param {Line[]} [lines] that aren't in the log yet
   */
  #begin(page, lines = []) {
    this.#log.begin(linesAnew(page, [...this.#log.lines, ...lines]), titleOf(page), true);
  }

  /**
   * @param {Page} page
   * @param {Line[]} lines
   */
  #makeRoom(page, lines) {
    const isNew = !this.#isFull;
    this.#isFull = true;
    try {
      this.#begin(page, lines);
      if (isNew) page.notify('The browser’s storage is full: after a reload nothing can be undone any more.');
    } catch {
      page.notify('The browser’s storage is full: what you change isn’t kept. Save it as a file.');
    }
  }

  /** @param {Page} page */
  #leave(page) {
    this.#write(page);
    try {
      if (this.#log.size > LONG && this.#log.isOurs) this.#begin(page);
      this.#log.release();
    } catch {
      // There is no room. What was written stays.
    }
    this.#rememberTab();
  }

  #rememberTab() {
    sessionStorage.setItem(here, JSON.stringify({ tab: this.#tab, id: this.#next }));
  }
}

/** While a tab is seen nothing tells its name, since a duplicate of it is another tab. */
function forgetTab() {
  sessionStorage.removeItem(here);
}

/**
 * Whether a log needs a line: it changed something, or registered a rule, which an idle reply may tell.
 * @param {Line} line
 * @param {import('../replies.js').Reply} reply
 */
function isToKeep(line, reply) {
  if (reply.refused || line.show !== undefined) return false;
  return !reply.idle || line.rule !== undefined;
}
