// A document that one edits: an editor of the core, its view in an element, and acts one after another. The core is in
// the page, so an act is done, drawn and settled in microtasks: before the browser's next event, whatever that is.
import { View } from '../dom.js';
import { Hosts } from '../hosts.js';
import { Lexical } from '../lexical.js';
import { selectionIn, show } from '../selection.js';
import { Session, carrierOf, explain } from '../session.js';
import { guardComposing } from './composing.js';
import { meantBy } from './commands.js';
import { showDirections } from './directions.js';
import { listenToInput } from './input.js';
import { formatIn, placesOf } from './ranges.js';
import { startLines } from './rules.js';

/** @typedef {import('../lines.js').Line} Line */
/** @typedef {import('../lines.js').Selection} Selection */
/** @typedef {import('../replies.js').Reply} Reply */
/** @typedef {import('../replies.js').ReplySelection} ReplySelection */
/** @typedef {Line | ((selected: Selection) => Line | null)} Act */
/** @typedef {{ line: Line, reply: Reply, milliseconds?: number }} Told */
/**
 * What the page tells, by the names of its events: see `on`.
 * @typedef {{ told: [Told], changing: [], changed: [], settled: [], notice: [text: string] }} Events
 */
/**
 * What the parts of the page ask of it; a shared one has it too.
 * @typedef {Pick<Page, 'view' | 'isShared' | 'selection' | 'selected' | 'history' | 'isBusy' | 'act' | 'ask' | 'on'
 *   | 'notify' | 'focus'>} AnyPage
 */

const GROUP = 64; // blocks that are together in an element: style.css guesses its height

export class Page {
  /** Shows the core's view; `view.element` is what one types in. */
  view;
  editor;
  /** Whether undo may undo what somebody else did. */
  isShared = false;
  /**
   * What the core said last of what is selected.
   * @type {ReplySelection}
   */
  selection;
  /**
   * The lines by which the document came to be as it was opened, for whoever keeps a log.
   * @type {Line[]}
   */
  begun = [];
  /** @type {Map<string, Set<(...details: any) => void>>} */
  #listeners = new Map();
  /** @type {WeakMap<Reply, number>} */
  #milliseconds = new WeakMap();
  /**
   * How many entries the history has, if that was asked since the last act.
   * @type {{ undo: number, redo: number } | null}
   */
  #history = null;
  #session;
  /** @type {Promise<unknown>} */
  #turn = Promise.resolve();
  #waiting = 0;
  /** What was selected when that was looked at last, as JSON. */
  #seen = 'null';
  /**
   * The places in the browser's selection that show what the core has selected.
   * @type {unknown[]}
   */
  #shown = [];

  /**
   * Opens an editor, answers the lines of a log, if there is one, or else the start lines, and shows what comes of it.
   * @param {Element} element
   * @param {{ source?: import('../lexical.js').Source, log?: Line[], now?: () => number }} options
   */
  static async open(element, { source, log = [], now = Date.now } = {}) {
    return new Page(element, await Lexical.open(source), log, now);
  }

  /**
   * Use `Page.open`.
   * @param {Element} element
   * @param {Lexical} editor
   * @param {Line[]} log
   * @param {() => number} now
   */
  constructor(element, editor, log, now) {
    this.editor = editor;
    this.view = new View(element, { hosts: this.#hostsAfter(log, now), groups: GROUP });
    Object.assign(this.view.element, { contentEditable: 'true', role: 'textbox', ariaMultiLine: 'true' });
    this.view.element.ariaLabel = 'Document';
    showDirections(this.view);
    this.selection = editor.line({ show: 'selection' }).selection ?? null;
    const timed = /** @type {Lexical} */ ({ line: (/** @type {Line} */ line) => this.#answer(line) });
    this.#session = new Session(carrierOf(timed), {
      now,
      onReply: (reply, line) => this.#learn(reply, line),
    });
    guardComposing(this);
    listenToInput(this);
    element.ownerDocument.addEventListener('selectionchange', () => this.#look());
  }

  /**
   * What the browser has selected in the document, as a step `select` takes it; null where that is elsewhere. As long
   * as it is as the page has put it, that is what the core has: the same places may be read in another way.
   */
  get selected() {
    const browser = this.view.element.ownerDocument.getSelection();
    if (browser === null) return null;
    const places = placesIn(browser), isAsShown = places.every((place, index) => place === this.#shown[index]);
    return isAsShown && browser.anchorNode ? placesOf(this.selection) : selectionIn(this.view, browser);
  }

  /** How many entries the history has. It is asked for when somebody wants to know, rather than at each key. */
  get history() {
    return this.#history ??= this.editor.line({ show: 'history' }).history ?? { undo: 0, redo: 0 };
  }

  /** Whether an act waits or is under way. */
  get isBusy() {
    return this.#waiting > 0;
  }

  /**
   * Has lines answered in their turn, behind what is selected; each may dispatch a command of commands.js too. A line
   * that is refused becomes a notice, and those behind it in the act aren't sent. A function answers, once it is its
   * turn, what the line is by then, or null for none.
   * @param {Act | readonly Act[]} lines
   * @param {Selection} [selected] what the browser has selected if left out; null for what the core has
   * @returns {Promise<Reply[]>} a reply for each line that was sent
   */
  async act(lines, selected = this.#newlySelected()) {
    this.#waiting += 1;
    const done = this.#turn.then(() => this.#perform([lines].flat(), selected));
    this.#turn = done.catch(() => {});
    try {
      return await done;
    } catch (error) {
      const { code, message } = /** @type {Error & { code?: string }} */ (error);
      this.notify(code === 'broken' ? 'The editor has stopped. Open the page again.' : message);
      throw error;
    } finally {
      this.#waiting -= 1;
      if (!this.isBusy) this.#settle();
    }
  }

  /**
   * A question, which changes nothing and sends no selection.
   * @param {Line} line
   * @returns {Promise<Reply>}
   */
  async ask(line) {
    const [reply] = await this.#session.do(line);
    return reply;
  }

  /**
   * Calls a listener at each event of a name, until the function that is returned is called:
   * - `told`, with `{ line, reply, milliseconds }`: a line was answered; those of `begun` aren't told;
   * - `changing` and `changed`: right before and after the view follows a commit;
   * - `settled`: no act waits, and the selection is shown; or the reader has selected something else;
   * - `notice`, with a sentence for the reader.
   * @template {keyof Events} N
   * @param {N} name
   * @param {(...details: Events[N]) => void} listener
   */
  on(name, listener) {
    const listeners = this.#listeners.get(name) ?? new Set();
    this.#listeners.set(name, listeners.add(listener));
    return () => { listeners.delete(listener); };
  }

  /** @param {string} text a sentence for the reader */
  notify(text) {
    this.#emit('notice', text);
  }

  focus() {
    this.view.element.focus({ preventScroll: true });
    this.#settle();
  }

  /**
   * The hosts after the lines that the document begins with. They are drawn once, however many lines there are.
   * @param {Line[]} log
   * @param {() => number} now
   */
  #hostsAfter(log, now) {
    const hosts = new Hosts();
    const answer = (/** @type {Line} */ line) => {
      const reply = this.editor.line(line);
      if (reply.ops) hosts.apply(reply.ops);
      if (!reply.refused) this.begun.push(line);
    };
    log.forEach(answer);
    if (hosts.root.children.length === 0) startLines(now()).forEach(answer);
    return hosts;
  }

  /** While acts wait, the browser still shows what was selected before them: that isn't selected again. */
  #newlySelected() {
    const selected = this.selected, seen = JSON.stringify(selected);
    const isOld = this.isBusy && seen === this.#seen;
    this.#seen = seen;
    return isOld ? null : selected;
  }

  /**
   * @param {Act[]} lines
   * @param {Selection} selected
   */
  async #perform(lines, selected) {
    /** @type {Reply[]} */
    const replies = [];
    for (const [index, act] of lines.entries()) {
      const first = index === 0 ? selected : null;
      const line = typeof act === 'function' ? act(first ?? placesOf(this.selection)) : act;
      if (line === null) continue;
      const reply = await this.#do(line, first);
      replies.push(reply);
      if (!reply.refused) continue;
      this.notify(explain(reply.refused));
      break;
    }
    return replies;
  }

  /**
   * @param {Line} line
   * @param {Selection} selected
   * @returns {Promise<Reply>}
   */
  async #do(line, selected, isRepeated = false) {
    const { hosts } = this.view, format = formatIn(this.selection);
    const { lines, selection, isToRepeat } = meantBy(hosts, line, selected ?? placesOf(this.selection), format);
    const merged = isRepeated ? lines.map(one => /** @type {Line} */ ({ tags: ['history-merge'], ...one })) : lines;
    const replies = await this.#session.do(merged, selection);
    const reply = replies.find(({ refused }) => refused) ?? replies.at(-1) ?? { idle: true };
    return isToRepeat && !isRepeated && !reply.refused ? this.#do(line, null, true) : reply;
  }

  /** @param {Line} line */
  #answer(line) {
    const start = performance.now();
    const reply = this.editor.line(line);
    this.#milliseconds.set(reply, performance.now() - start);
    return reply;
  }

  /**
   * @param {Reply} reply
   * @param {Line} line
   */
  #learn(reply, line) {
    if (reply.ops) {
      this.#emit('changing');
      this.view.apply(reply.ops);
      showDirections(this.view, reply.ops);
      this.#emit('changed');
    }
    if (reply.selection !== undefined) this.selection = reply.selection;
    this.#emit('told', { line, reply, milliseconds: this.#milliseconds.get(reply) });
  }

  #settle() {
    show(this.view, this.selection);
    const browser = this.view.element.ownerDocument.getSelection();
    const isHere = browser?.anchorNode && this.view.hostAround(browser.anchorNode) !== null;
    this.#shown = isHere && this.selection ? placesIn(browser) : [];
    this.#seen = JSON.stringify(this.selected);
    this.#history = null;
    this.#emit('settled');
  }

  /** The browser has something else selected, if no act has done that. */
  #look() {
    if (this.isBusy) return;
    const seen = JSON.stringify(this.selected);
    if (seen === this.#seen) return;
    this.#seen = seen;
    this.#emit('settled');
  }

  /**
   * @template {keyof Events} N
   * @param {N} name
   * @param {Events[N]} details
   */
  #emit(name, ...details) {
    for (const listener of this.#listeners.get(name) ?? []) listener(...details);
  }
}

/** @param {globalThis.Selection} browser */
const placesIn = ({ anchorNode, anchorOffset, focusNode, focusOffset }) => (
  [anchorNode, anchorOffset, focusNode, focusOffset]
);
