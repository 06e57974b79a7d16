// A document that several people edit: as page.js, but the core is in the service. So acts take a while, and what others
// do comes between them.
import { View } from '../dom.js';
import { edgeOf } from '../hosts-order.js';
import { selectionIn, show } from '../selection.js';
import { Session, explain } from '../session.js';
import { meantBy } from './commands.js';
import { guardComposing } from './composing.js';
import { showDirections } from './directions.js';
import { listenToInput } from './input.js';
import { formatIn, placesOf } from './ranges.js';
import { startLines } from './rules.js';
import { Service, overtaken } from './service.js';

/** @typedef {import('../lines.js').Line} Line */
/** @typedef {import('../lines.js').Selection} Selection */
/** @typedef {import('../replies.js').Operation} Operation */
/** @typedef {import('../replies.js').Reply} Reply */
/** @typedef {import('../replies.js').ReplySelection} ReplySelection */
/** @typedef {import('./page.js').Act} Act */
/** @typedef {import('./page.js').Events} Events */
/** @typedef {import('./service.js').Followed} Followed */

const OVERTAKEN = 'Somebody else has changed this place meanwhile: that wasn’t done.';

/** What the page's tools ask for, as `Page` of page.js has it. */
export class SharedPage {
  view;
  isShared = true;
  /** @type {ReplySelection} */
  selection = null;
  /** What can be undone isn't told: it may be anyone's. */
  history = { undo: 1, redo: 1 };
  /** @type {Map<string, Set<(...details: any) => void>>} */
  #listeners = new Map();
  #service;
  #session;
  /** @type {Promise<unknown>} */
  #turn = Promise.resolve();
  #waiting = 0;
  #seen = 'null';

  /**
   * @param {Element} element
   * @param {string} place of the document at the service
   * @param {() => void} [anew] what is done where the service begins the document anew
   */
  constructor(element, place, anew = () => location.reload()) {
    this.view = new View(element);
    Object.assign(this.view.element, { contentEditable: 'true', role: 'textbox', ariaMultiLine: 'true' });
    this.view.element.ariaLabel = 'Document';
    this.#service = new Service(place, { onEntry: replies => this.#takeOthers(replies), onAnew: anew });
    this.#session = new Session(this.#service, { onReply: (reply, line) => this.#learn(reply, line) });
  }

  /** Draws what there is, and lets one type. */
  async open() {
    await this.#service.open(startLines(0));
    guardComposing(this);
    listenToInput(this);
    this.view.element.ownerDocument.addEventListener('selectionchange', () => this.#look());
  }

  /** What the browser has selected in the document, as a step `select` takes it. */
  get selected() {
    const browser = this.view.element.ownerDocument.getSelection();
    return browser === null ? null : selectionIn(this.view, browser);
  }

  get isBusy() {
    return this.#waiting > 0;
  }

  /**
   * Has lines answered in their turn, behind what is selected, as `Page.act`.
   * @param {Act | readonly Act[]} lines
   * @param {Selection} [selected]
   * @returns {Promise<Reply[]>}
   */
  async act(lines, selected = this.#newlySelected()) {
    this.#waiting += 1;
    const followed = this.#service.follow(selected);
    const done = this.#turn.then(() => this.#perform([lines].flat(), followed));
    this.#turn = done.then(() => {}, () => {});
    try {
      return await done;
    } catch (error) {
      this.notify(/** @type {Error} */ (error).message);
      return [];
    } finally {
      this.#service.leave(followed);
      this.#waiting -= 1;
      if (!this.isBusy) this.#settle();
    }
  }

  /**
   * What there is, behind all acts that wait: only the state is asked for, as no other question has an address.
   * @param {{ show: 'state' }} _
   */
  async ask(_) {
    await this.#turn;
    return { state: await this.#service.state() };
  }

  /**
   * @template {keyof Events} N
   * @param {N} name
   * @param {(...details: Events[N]) => void} listener
   */
  on(name, listener) {
    const listeners = this.#listeners.get(name) ?? new Set();
    this.#listeners.set(name, listeners.add(listener));
    return () => { listeners.delete(listener); };
  }

  /** @param {string} text a sentence for the reader */
  notify(text) {
    this.#emit('notice', text);
  }

  focus() {
    this.view.element.focus({ preventScroll: true });
    const start = edgeOf(this.view.hosts.root, true);
    show(this.view, { kind: 'range', anchor: start, focus: start, format: 0 });
  }

  /** While acts wait, the browser still shows what was selected before them: that isn't selected again. */
  #newlySelected() {
    const selected = this.selected, seen = JSON.stringify(selected);
    const isOld = this.isBusy && seen === this.#seen;
    this.#seen = seen;
    return isOld ? null : selected;
  }

  /**
   * @param {Act[]} lines
   * @param {Followed} followed
   */
  async #perform(lines, followed) {
    /** @type {Reply[]} */
    const replies = [];
    for (const [index, act] of lines.entries()) {
      const first = index === 0 ? followed.value : null;
      const line = typeof act === 'function' ? act(first ?? placesOf(this.selection)) : act;
      if (line === null) continue;
      const reply = index === 0 && followed.isLost ? overtaken : await this.#do(line, first);
      replies.push(reply);
      if (!reply.refused) continue;
      this.notify(reply.refused.cause === overtaken.refused.cause ? OVERTAKEN : explain(reply.refused));
      break;
    }
    return replies;
  }

  /**
   * @param {Line} line
   * @param {Selection} selected
   * @returns {Promise<Reply>}
   */
  async #do(line, selected, isRepeated = false) {
    const { hosts } = this.view, format = formatIn(this.selection);
    const { lines, selection, isToRepeat } = meantBy(hosts, line, selected ?? placesOf(this.selection), format);
    const replies = lines.length > 0 || selection ? await this.#session.do(lines, selection) : [];
    const reply = replies.find(({ refused }) => refused) ?? replies.at(-1) ?? { idle: true };
    return isToRepeat && !isRepeated && !reply.refused ? this.#do(line, null, true) : reply;
  }

  /**
   * What others did: all that is meant for this document moves along with it.
   * @param {Reply[]} replies
   */
  #takeOthers(replies) {
    const own = this.#service.follow(this.selection), shown = this.#service.follow(this.selected);
    this.#redraw(() => {
      for (const reply of replies) if (reply.ops) this.#draw(reply.ops, true);
      for (const followed of [own, shown]) this.#service.leave(followed);
      this.selection = own.isLost ? null : own.value;
      this.#session.forget();
    }, () => (shown.isLost || !shown.value ? null : { kind: 'range', format: 0, ...shown.value }));
    this.#look();
  }

  /**
   * @param {Reply} reply
   * @param {Line} line
   */
  #learn(reply, line) {
    this.#redraw(() => {
      if (reply.ops) this.#draw(reply.ops, false);
      if (reply.selection !== undefined) this.selection = reply.selection;
    }, () => this.selection);
    this.#emit('told', { line, reply });
  }

  /**
   * Draws, and shows what is selected then. While acts wait, that isn't taken for what the reader has selected.
   * @param {() => void} draw
   * @param {() => ReplySelection} selection
   */
  #redraw(draw, selection) {
    const isOld = JSON.stringify(this.selected) === this.#seen;
    draw();
    const shown = selection();
    if (shown && (isOld || !this.isBusy)) show(this.view, shown);
    if (isOld) this.#seen = JSON.stringify(this.selected);
  }

  /**
   * @param {readonly Operation[]} ops
   * @param {boolean} isOthers
   */
  #draw(ops, isOthers) {
    this.#emit('changing');
    if (isOthers) this.#service.moveAlong(this.view.hosts, ops);
    this.view.apply(ops);
    showDirections(this.view, ops);
    this.#emit('changed');
  }

  #settle() {
    show(this.view, this.selection);
    this.#seen = JSON.stringify(this.selected);
    this.#emit('settled');
  }

  #look() {
    if (this.isBusy) return;
    const seen = JSON.stringify(this.selected);
    if (seen === this.#seen) return;
    this.#seen = seen;
    this.#emit('settled');
  }

  /**
   * @template {keyof Events} N
   * @param {N} name
   * @param {Events[N]} details
   */
  #emit(name, ...details) {
    for (const listener of this.#listeners.get(name) ?? []) listener(...details);
  }
}
