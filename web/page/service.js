// A document of the service in service/: lines go there by POST, and what others do comes as events. Both are drawn in
// the order of the service's log, each entry once.
import { mapPoint } from '../selection.js';

/** @typedef {import('../hosts.js').Hosts} Hosts */
/** @typedef {import('../lines.js').Line} Line */
/** @typedef {import('../lines.js').Selection} Selection */
/** @typedef {import('../replies.js').Operation} Operation */
/** @typedef {import('../replies.js').Reply} Reply */
/** Something with points of the tree in it, which follows what others do; `isLost` where it can't. */
/** @typedef {{ value: any, isLost: boolean }} Followed */

const PAUSE = 500; // milliseconds until something is tried again
const points = new Set(['text', 'element']);

/**
 * What a reply to a line is that was meant for what others have changed meanwhile. The core has no such cause.
 * @type {Reply & { refused: { cause: any } }}
 */
export const overtaken = /** @type {any} */ ({ refused: { cause: 'Overtaken', code: 0, detail: null, step: null } });

/** @type {(entry: string) => number} */
const numberOf = entry => Number(entry.split('.')[0]);
const pause = () => new Promise(resolve => { setTimeout(resolve, PAUSE); });

/** A carrier for a session. */
export class Service {
  #place;
  #onEntry;
  #onAnew;
  /** The last entry that is drawn. */
  #drawn = '0';
  /**
   * What this page has selected.
   * @type {Followed}
   */
  #selected = { value: null, isLost: false };
  /** Whether the core may have something else selected. */
  #isToSelect = true;
  /** @type {Set<Followed>} */
  #followed = new Set();
  /** @type {(() => void)[]} who waits until something else is drawn */
  #waiting = [];

  /**
   * @param {string} place of the document
   * @param {{ onEntry: (replies: Reply[]) => void, onAnew: () => void }} what `onEntry` draws what others did;
   * `onAnew` is called where an epoch has begun, by which all keys are void
   */
  constructor(place, { onEntry, onAnew }) {
    this.#place = place;
    this.#onEntry = onEntry;
    this.#onAnew = onAnew;
  }

  /**
   * Begins the document, if nobody has, and draws it.
   * @param {Line[]} start the lines of a new document, the same for all who begin it
   */
  async open(start) {
    const { status } = await fetch(`${this.#place}/state`);
    if (status === 404) await this.#post('begin', start, '0', false);
    const events = new EventSource(`${this.#place}/events`);
    const opened = new Promise(resolve => { this.#waiting.push(() => resolve(undefined)); });
    events.addEventListener('begin', event => this.#take(event, true));
    events.addEventListener('message', event => this.#take(event, false));
    await opened;
  }

  /**
   * The document, as it is stored.
   * @returns {Promise<import('../replies.js').Document>}
   */
  async state() {
    const answer = await fetch(`${this.#place}/state`);
    if (!answer.ok) throw new Error(`The document can’t be read: ${await answer.text()}`);
    return answer.json();
  }

  /**
   * Lets something follow what others do, until `leave`.
   * @param {any} value
   * @returns {Followed}
   */
  follow(value) {
    const followed = { value, isLost: false };
    this.#followed.add(followed);
    return followed;
  }

  /** @param {Followed} followed */
  leave(followed) {
    this.#followed.delete(followed);
  }

  /**
   * Moves all that follows along with a commit, before that is drawn.
   * @param {Hosts} hosts
   * @param {readonly Operation[]} ops
   */
  moveAlong(hosts, ops) {
    for (const followed of [this.#selected, ...this.#followed]) {
      const moved = movedAlong(hosts, ops, followed.value);
      if (moved === undefined) followed.isLost = true;
      else followed.value = moved;
    }
  }

  /**
   * Has lines done behind what this page has selected, and exactly where it has drawn all there is. If something came
   * between, the lines follow it, and are sent again.
   * @param {readonly Line[]} lines
   * @returns {Promise<Reply[]>}
   */
  async send(lines) {
    if (this.#isSelection(lines)) return [{ idle: true }];
    const followed = this.follow(lines);
    try {
      for (;;) {
        if (followed.isLost || this.#selected.isLost) return lines.map(() => overtaken);
        const seen = this.#drawn, first = this.#isToSelect ? [selecting(lines, this.#selected.value)] : [];
        const answer = await this.#post(crypto.randomUUID(), [...first, ...followed.value], seen, true);
        if (answer) return this.#told(answer.entry, answer.replies.slice(first.length));
        if (this.#drawn === seen) await new Promise(resolve => { this.#waiting.push(() => resolve(undefined)); });
      }
    } finally {
      this.leave(followed);
    }
  }

  /**
   * A selection alone is sent with the lines behind it: others may select something else meanwhile.
   * @param {readonly Line[]} lines
   */
  #isSelection([line, ...others]) {
    const [step, ...behind] = line?.update ?? [];
    if (others.length > 0 || behind.length > 0 || step?.select === undefined) return false;
    this.#selected = { value: step.select, isLost: false };
    this.#isToSelect = true;
    return true;
  }

  /**
   * The replies to this page's lines. If they came as an event before, they are drawn already.
   * @param {string} entry
   * @param {Reply[]} replies
   */
  #told(entry, replies) {
    const isDrawn = numberOf(entry) <= numberOf(this.#drawn);
    if (!isDrawn) this.#drawn = entry;
    this.#isToSelect = this.#drawn !== entry;
    const told = replies.findLast(({ selection }) => selection !== undefined);
    if (told?.selection !== undefined) this.#selected = { value: placesOf(told.selection), isLost: false };
    else this.#isToSelect = true;
    return isDrawn ? replies.map(({ ops, ...reply }) => /** @type {Reply} */ (reply)) : replies;
  }

  /**
   * The answer to a request, which is asked until it is known; null if something is there that wasn't seen.
   * @param {string} request
   * @param {readonly Line[]} lines
   * @param {string} seen
   * @param {boolean} isExact
   */
  async #post(request, lines, seen, isExact) {
    const query = new URLSearchParams({ request, seen, exact: isExact ? '1' : '0' });
    const body = lines.map(line => `${JSON.stringify(line)}\n`).join('');
    for (;;) {
      const answer = await fetch(`${this.#place}/lines?${query}`, {
        method: 'POST', body, headers: { 'Content-Type': 'application/x-ndjson' },
      }).catch(() => null);
      const text = await answer?.text().catch(() => null);
      if (answer?.ok && typeof text === 'string') {
        return { entry: answer.headers.get('Entry') ?? '', replies: repliesIn(text) };
      }
      if (answer?.status === 409) return null;
      if (answer && answer.status < 500) throw new Error(`This can’t be done: ${text}`);
      await pause(); // nothing is known: it is asked again by the same name
    }
  }

  /**
   * Draws an entry, unless the answer to this page's own request came before.
   * @param {MessageEvent<string>} event
   * @param {boolean} isBegin
   */
  #take({ lastEventId, data }, isBegin) {
    if (numberOf(lastEventId) <= numberOf(this.#drawn)) return;
    if (isBegin && this.#drawn !== '0') return this.#onAnew();
    this.#drawn = lastEventId;
    this.#isToSelect = true;
    this.#onEntry(repliesIn(data));
    for (const wake of this.#waiting.splice(0)) wake();
  }
}

/** @type {(text: string) => Reply[]} */
const repliesIn = text => text.split('\n').filter(line => line !== '').map(line => JSON.parse(line));

/** @type {(lines: readonly Line[], selection: Selection) => Line} */
const selecting = ([{ at }], selection) => ({ at, update: [{ select: selection }] });

/** @param {import('../replies.js').ReplySelection} selection */
function placesOf(selection) {
  if (selection === null) return null;
  const { kind, ...places } = selection;
  return places;
}

/** @type {(value: any[]) => boolean} */
const isPoint = value => value.length === 3 && typeof value[0] === 'number' && points.has(value[2]);

/**
 * A value in which all points are where they are after a commit; undefined where that can't be told of one.
 * @param {Hosts} hosts
 * @param {readonly Operation[]} ops
 * @param {any} value
 * @returns {any}
 */
function movedAlong(hosts, ops, value) {
  if (typeof value !== 'object' || value === null) return value;
  if (Array.isArray(value)) {
    if (isPoint(value)) return mapPoint(hosts, ops, /** @type {[number, number, 'text']} */ (value)) ?? undefined;
    const moved = value.map(one => movedAlong(hosts, ops, one));
    return moved.includes(undefined) ? undefined : moved;
  }
  const pairs = Object.entries(value).map(([name, one]) => [name, movedAlong(hosts, ops, one)]);
  return pairs.some(([, one]) => one === undefined) ? undefined : Object.fromEntries(pairs);
}
