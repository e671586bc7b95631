// @ts-check
/**
 * A watcher's side of a match: the rows that player 1 shows, and what the watcher says of them. docs/FORMATS.md has the packets and
 * their seal. The rows are shown by sessions of all players, which tick what the rows say.
 * @module
 */
import { bytesOf, hmac, joined, word } from './link.mjs';

/** @typedef {import('./link.mjs').Rules} Rules */

const MAGIC = [0x43, 0x38], SHOW = 7, SEEN = 8, CHAIR = 1;

/** Where the parts of a SHOW stand: session, from, to, the body and its length, the rows; and the sizes of a row, a counter and a tag. */
const SESSION = 4, FROM = 12, TO = 13, LENGTH = 14, BODY = 24, COUNT = 28, ROWS = 30, ROW = 8, COUNTER = 8, TAG = 16;
const MOST_ROWS = 16, LONGEST = 198;

/** A watcher's counters begin at the time in milliseconds, times 2 to this power. */
const COUNTER_BITS = 20n;

/** @param {Uint8Array} one @param {Uint8Array} two */
const areEqual = (one, two) => one.length === two.length && one.every((it, place) => it === two[place]);

export class Spectator {
  /**
   * @param {number} seat 5 or 6
   * @param {Rules} rules
   * @param {Uint8Array} session the number of the match
   * @param {Uint8Array} secret of the watchers
   */
  constructor(seat, rules, session, secret) {
    this.seat = seat;
    this.rules = rules;
    this.session = session;
    this.key = hmac(secret, joined(bytesOf('c8play watched 2'), session));
    this.counter = BigInt(Date.now()) << COUNTER_BITS;
    /** The rows from frame 0 on, each with the keys of four players.
     * @type {number[][]} */
    this.rows = [];
  }

  /** The packet that says how many rows are here. */
  seen() {
    const { seat, rules, session, rows } = this, epochs = new Uint8Array(8), count = word(BigInt(rows.length)).slice(4);
    const head = Uint8Array.of(...MAGIC, rules.wire, SEEN, ...session, seat, CHAIR, 0, count.length);
    return this.sealed(joined(head, epochs, count, word(this.counter++)));
  }

  /** @param {Uint8Array} bytes a datagram and its counter */
  sealed(bytes) {
    return joined(bytes, hmac(this.key, bytes).slice(0, TAG));
  }

  /** Takes a packet, whatever its bytes. Returns whether it is a SHOW for this watcher. One that came before adds nothing, so its counter
   * is not looked at.
   * @param {Uint8Array} packet
   */
  take(packet) {
    const size = packet.length - COUNTER - TAG;
    if (size < ROWS || packet.length > LONGEST || !areEqual(this.sealed(packet.slice(0, -TAG)), packet)) return false;
    const { seat, rules, session } = this, view = new DataView(packet.buffer, packet.byteOffset, size);
    const count = view.getUint16(COUNT), isOurs = areEqual(packet.slice(SESSION, FROM), session) && packet[FROM] === CHAIR && packet[TO] === seat;
    if (![...MAGIC, rules.wire, SHOW].every((it, place) => packet[place] === it) || !isOurs) return false;
    if (view.getUint16(LENGTH) !== size - BODY || count > MOST_ROWS || size !== ROWS + count * ROW) return false;
    this.add(view, view.getUint32(BODY), count);
    return true;
  }

  /** Adds the rows that are missing, if they begin where those that are here end, or before.
   * @param {DataView} view
   * @param {number} start
   * @param {number} count
   */
  add(view, start, count) {
    const { rows, rules } = this;
    for (let it = Math.max(0, rows.length - start); start <= rows.length && it < count && rows.length < rules.frames; it++)
      rows.push([0, 2, 4, 6].map(at => view.getUint16(ROWS + it * ROW + at)));
  }
}
