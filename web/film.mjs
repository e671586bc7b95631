// @ts-check
/**
 * The pictures of a match: the machine of the module runs each row once, and what it changes on the screen is kept, so that any frame can be
 * shown again.
 * @module
 */
import { bytesOf, hex } from './link.mjs';

/** @typedef {import('./link.mjs').Rules} Rules */

/** After how many frames a mark is kept, as peers compare them. */
export const MARKED = 32;

/** The room for changes at first, the greatest window, and the bytes of a screen. */
const FIRST_ROOM = 1 << 12, MOST_AHEAD = 12, SCREEN = 256;

/** The text of a game for one player, who holds the keys of all. Its machine is that of the game: a mask, a delay and a window change no
 * instruction. Player 2 is there because a game has two at least.
 * @param {Rules} rules
 */
export function soloText({ ipf, frames, seed, code }) {
  return bytesOf(`players 2\nipf ${ipf}\nframes ${frames}\ndelay 0\nwindow ${MOST_AHEAD}\nseed ${seed}\nmask1 ffff\nmask2 0000\ncode ${hex(code)}\n`);
}

export class Film {
  /**
   * @param {import('./c8.mjs').C8} c8
   * @param {Rules} rules
   */
  constructor(c8, rules) {
    this.rules = rules;
    this.session = c8.open(soloText(rules), 1, 0n);
    // without player 2 each frame is confirmed at once
    if (this.session.leave(2) || this.session.decide(2)) throw new Error('the module does not drop player 2');
    this.screen = new Uint8Array(SCREEN);
    /** The changes of all frames, one after another: the place of a byte of the screen, and its bits that change. */
    this.changes = new Uint16Array(FIRST_ROOM);
    /** Where the changes of each frame end. */
    this.ends = new Uint32Array(rules.frames + 1);
    this.frames = 0;
    /** The mark after each multiple of 32 frames.
     * @type {string[]} */
    this.marks = [hex(this.session.mark())];
    this.end = this.marks[0];
  }

  /** The keys of all players in one set, as the machine sees them.
   * @param {number[]} row
   */
  joined(row) {
    return row.reduce((all, keys, player) => all | keys & this.rules.masks[player], 0);
  }

  /** Runs one more frame.
   * @param {number[]} row
   */
  add(row) {
    const { session } = this, why = session.tick(this.joined(row)), before = this.screen;
    if (why) throw new Error(`the module refuses frame ${this.frames}: ${why}`);
    session.turn();
    this.screen = session.screen();
    let at = this.ends[this.frames];
    this.makeRoom(at + SCREEN);
    for (let place = 0; place < SCREEN; place++) {
      const bits = before[place] ^ this.screen[place];
      if (bits) this.changes[at++] = place << 8 | bits;
    }
    this.ends[++this.frames] = at;
    if (this.frames % MARKED === 0) this.marks.push(hex(session.mark()));
    if (this.frames === this.rules.frames) this.end = hex(session.mark());
  }

  /** @param {number} size */
  makeRoom(size) {
    if (size <= this.changes.length) return;
    const more = new Uint16Array(2 * this.changes.length + size);
    more.set(this.changes);
    this.changes = more;
  }

  /** Changes a screen into that after a frame, or back into the one before it: a change undoes itself.
   * @param {Uint8Array} screen
   * @param {number} frame
   */
  change(screen, frame) {
    for (let at = this.ends[frame]; at < this.ends[frame + 1]; at++) screen[this.changes[at] >> 8] ^= this.changes[at] & 0xff;
  }

  /** The last mark up to a frame, and its frame.
   * @param {number} frame
   */
  markAt(frame) {
    if (frame && frame === this.rules.frames) return { frame, mark: this.end };
    const place = Math.floor(frame / MARKED);
    return { frame: MARKED * place, mark: this.marks[place] };
  }
}
