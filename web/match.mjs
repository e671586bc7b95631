// @ts-check
/**
 * One player's side of a match, a frame at a time, by the rules of `c8play play`: when frames are due, which tick a player that
 * runs ahead leaves out, and what the row under the picture says. Nothing here knows a page or a network.
 * @module
 */
import { DESYNC, DISK, DROPPED, FULL, NOT_SEALED, ROW } from './c8.mjs';
import { WATCHERS, hex } from './link.mjs';

/** @typedef {import('./c8.mjs').Session} Session */
/** @typedef {import('./link.mjs').Rules} Rules */

export const RATE = 60, SECOND = 1000;

/** How many rows are taken at once. */
const MOST_ROWS = 512;

/** Answers of a delivery of a player who does not know this session: the hundred of `hand` in docs/REFUSALS.md. */
const STRANGE = 600, STRANGER = 700;

/** The answer of a delivery that says that player 1 has dropped this player. */
const OUT = 2;

/** After a pause of more frames than this, the missed ones are skipped. */
const LONGEST_PAUSE = 5;

/** When frames are due. Times are milliseconds. */
export class Beat {
  /** @param {number} now when the first frame is due */
  constructor(now) {
    this.start = now;
    this.begun = 0;
  }

  /** When a frame is due: the next one, or one of those after it.
   * @param {number} [after] how many frames later
   */
  due(after = 0) {
    return this.start + (this.begun + after) * SECOND / RATE;
  }

  /** Begins the next frame. The clock starts again if the frame is late by more than five frames.
   * @param {number} now
   */
  begin(now) {
    if (now > this.due(LONGEST_PAUSE)) this.start = now, this.begun = 0;
    this.begun++;
  }
}

/**
 * What the row under the picture says. Times are milliseconds.
 * @typedef {object} Row
 * @property {number} player
 * @property {number} ticked
 * @property {number} confirmed
 * @property {number} frames of the game
 * @property {number} waits the player for whom the match waits, or 0
 * @property {{ number: number, met: boolean, silent: number, dropped: boolean }[]} others
 * @property {number} rollbacks in the last second
 * @property {number} longest frames of one of these
 * @property {number} unsealed packets that were not sealed with the secret of the match
 * @property {number} strange packets in a row of players who do not know this session
 * @property {boolean} lost the journal lacks inputs that the others hold
 * @property {boolean} differs the machines differ
 * @property {number} failed the number of a refusal that ended the match here, or 0
 */

/** A match at one player. */
export class Match {
  /**
   * @param {Session} session
   * @param {Rules} rules
   * @param {number} player
   * @param {(to: number, bytes: Uint8Array) => void} send
   */
  constructor(session, rules, player, send) {
    this.session = session;
    this.rules = rules;
    this.player = player;
    this.send = send;
    this.others = rules.masks.map((_, place) => place + 1).filter(it => it !== player);
    this.waits = 0;
    this.stepped = 0;
    this.rollbacks = new Rollbacks();
    /** @type {Set<number>} */
    this.met = new Set();
    /** @type {Set<number>} */
    this.watchers = new Set();
    this.unsealed = 0;
    this.strange = 0;
    this.differs = false;
    this.failed = 0;
    this.wasDropped = false;
  }

  /** Takes a packet, whatever its bytes.
   * @param {Uint8Array} bytes
   */
  deliver(bytes) {
    const answer = this.session.deliver(bytes);
    this.note(answer);
    if (answer === NOT_SEALED) this.unsealed++;
    if (answer > STRANGE && answer < STRANGER) this.strange++;
    else if (answer <= OUT) this.strange = 0;
    if (answer === DESYNC) this.differs = true;
    const { seat } = this.session.sender();
    if (WATCHERS.includes(seat) && !this.watchers.has(seat)) this.watchers.add(seat), this.session.watched(seat);
  }

  /** Notes an answer after which the session goes no further.
   * @param {number} answer
   */
  note(answer) {
    if (answer === DISK || answer === FULL) this.failed = answer;
    if (answer === DROPPED || answer === OUT) this.wasDropped = true;
  }

  /** Makes the turn of a frame with the keys that are held; without a tick if they are null.
   * @param {number | null} keys
   */
  frame(keys) {
    const { session } = this;
    if (keys === null || session.wait()) this.waits = 0;
    else this.enter(session.tick(keys));
    this.note(session.turn());
    for (const { to, bytes } of session.packets()) this.send(to, bytes);
    this.follow();
  }

  /** @param {number} answer of a tick */
  enter(answer) {
    this.note(answer);
    this.waits = answer && this.session.confirmed() < this.rules.frames ? this.hindmost()?.number ?? 0 : 0;
  }

  /** The other player with the fewest known inputs, among those who were not dropped. */
  hindmost() {
    const known = this.others.map(number => ({ number, state: this.session.player(number) }));
    const there = known.flatMap(({ number, state }) => state && !state.dropped ? [{ number, held: state.held }] : []);
    return there.reduce((/** @type {{ number: number, held: number } | null} */ found, it) => found && found.held <= it.held ? found : it, null);
  }

  /** Counts how many frames were rolled back, and returns it. The machine is CHIP-8's, so nothing else is done with the rows. */
  follow() {
    let back = 0;
    for (;;) {
      const { from, rows } = this.session.step(MOST_ROWS), count = rows.length / ROW;
      if (count) back = Math.max(back, this.stepped - from), this.stepped = from + count;
      if (count < MOST_ROWS) break;
    }
    this.rollbacks.note(back);
    return back;
  }

  /** Whether there is nothing left to do. */
  isOver() {
    return this.failed !== 0 || this.wasDropped || this.session.isOver();
  }

  /** Drops a player; player 1 alone may.
   * @param {number} number
   */
  drop(number) {
    this.note(this.session.leave(number));
  }

  /** @returns {Row} */
  row() {
    const { session, rules, player, waits, unsealed, strange, differs, failed } = this, { count, longest } = this.rollbacks.last();
    const others = this.others.map(number => this.other(number));
    return { player, ticked: session.ticked(), confirmed: session.confirmed(), frames: rules.frames, waits, others, rollbacks: count, longest,
      unsealed, strange, lost: session.isLost(), differs, failed };
  }

  /** @param {number} number */
  other(number) {
    const state = this.session.player(number);
    if (state?.linked) this.met.add(number);
    return { number, met: this.met.has(number), silent: (state?.silent ?? 0) * SECOND / RATE, dropped: state?.dropped ?? false };
  }
}

/** The rollbacks of the last second. */
class Rollbacks {
  constructor() {
    /** @type {number[]} */
    this.frames = [];
  }

  /** @param {number} back how many frames a step went back */
  note(back) {
    this.frames.push(back);
    if (this.frames.length > RATE) this.frames.shift();
  }

  last() {
    const some = this.frames.filter(it => it > 0);
    return { count: some.length, longest: Math.max(0, ...some) };
  }
}

/** The report that `run`, `peer` and `play` print of a machine (docs/FORMATS.md).
 * @param {number} frames
 * @param {Uint8Array} state its bytes
 */
export function reportOf(frames, state) {
  const part = (/** @type {number} */ at, /** @type {number} */ size) => hex(state.subarray(at, at + size));
  const numbers = (/** @type {number} */ count) => Array.from({ length: count }, (_, it) => it);
  const stack = numbers(state[4116]).map(it => ` ${part(4117 + 2 * it, 2)}`).join('');
  const draws = new DataView(state.buffer, state.byteOffset).getBigUint64(4410);
  const how = state[4418] ? `stop ${state[4418]}` : state[4409] < 16 ? `waits ${state[4409].toString(16).toUpperCase()}` : 'runs';
  const isLit = (/** @type {number} */ row, /** @type {number} */ column) => state[4149 + 8 * row + (column >> 3)] >> (7 - (column & 7)) & 1;
  const picture = numbers(32).map(row => numbers(64).map(column => isLit(row, column) ? '#' : '.').join(''));
  return [`frames ${frames}`, `pc ${part(4114, 2)} i ${part(4112, 2)}`, `v ${numbers(16).map(it => part(4096 + it, 1)).join(' ')}`,
    `timer ${part(4405, 1)} tone ${part(4406, 1)} draws ${draws}`, `stack ${state[4116]}${stack}`, `state ${how}`, ...picture, ''].join('\n');
}
