// @ts-check
/**
 * The way of a match's packets through a relay, over a WebSocket (docs/FORMATS.md). Each second it says a JOIN for each of its
 * seats, so a relay that restarts, and one that forgot, know them again. A connection that ends is opened again.
 * @module
 */
import { joined } from './link.mjs';

const MAGIC = [0x43, 0x52], VERSION = 1, JOIN = 1, PROVE = 2, JOINED = 3, BUSY = 4, FULL = 5, ANSWER = 24, COOKIE = 8;

/** How many answers in a row have to say that a seat is taken: an own connection that was lost counts as heard for three seconds. */
const MOST_BUSY = 4;

/** How often it says a JOIN, in milliseconds, and after how many of them without an answer it opens another connection. */
const EVERY = 1000, MOST_QUIET = 5;

/** How long it waits before it opens another connection. */
const FIRST_PAUSE = 250, LONGEST_PAUSE = 4000;

/** What a connection has waiting at most, in bytes. More is dropped, as a network does. */
const MOST_WAITING = 65536;

/**
 * How it stands with the relay: no connection yet, none any more, a seat that somebody else has, or no room for one.
 * @typedef {'calls' | 'joined' | 'away' | 'busy' | 'full'} Standing
 */

/** A seat that is asked for. Lane 0 is that of players, 1 that of watchers.
 * @typedef {{ seat: number, lane: number, name: Uint8Array }} Place
 */

export class Relay {
  /**
   * @param {string} url
   * @param {Place[]} places
   * @param {(bytes: Uint8Array) => void} hear
   * @param {(standing: Standing) => void} tell
   */
  constructor(url, places, hear, tell) {
    this.url = url;
    this.places = places;
    this.hear = hear;
    this.tell = tell;
    /** @type {Standing} */
    this.standing = 'calls';
    this.cookie = new Uint8Array(16);
    /** For each JOIN that waits for its answer, whether it is that of the own seat. A connection keeps their order.
     * @type {boolean[]} */
    this.asked = [];
    this.mayProve = true;
    this.busy = 0;
    this.quiet = 0;
    this.pause = FIRST_PAUSE;
    this.ended = false;
    this.socket = this.connect();
    this.clock = setInterval(() => this.tick(), EVERY);
  }

  connect() {
    this.quiet = 0;
    const socket = new WebSocket(this.url);
    socket.binaryType = 'arraybuffer';
    socket.onopen = () => { this.asked = []; this.join(); };
    socket.onmessage = ({ data }) => { if (data instanceof ArrayBuffer) this.take(new Uint8Array(data)); };
    socket.onclose = () => this.again();
    return socket;
  }

  /** Opens another connection, a little later each time. */
  again() {
    if (this.ended) return;
    this.become('away');
    this.quiet = 0;
    setTimeout(() => { if (!this.ended) this.socket = this.connect(); }, this.pause);
    this.pause = Math.min(2 * this.pause, LONGEST_PAUSE);
  }

  tick() {
    this.mayProve = true;
    this.quiet++;
    if (this.quiet > MOST_QUIET) this.giveUp();
    else this.join();
  }

  /** Leaves a connection that does not answer. Its end may take minutes, and nobody waits for it. */
  giveUp() {
    this.socket.onopen = this.socket.onmessage = this.socket.onclose = null;
    this.socket.close();
    this.again();
  }

  /** Asks for each seat. */
  join() {
    if (this.socket.readyState !== WebSocket.OPEN) return;
    this.places.forEach(({ seat, lane, name }, place) => {
      this.socket.send(joined(Uint8Array.of(...MAGIC, VERSION, JOIN, seat, lane, 0, 0), name, this.cookie));
      this.asked.push(place === 0);
    });
  }

  /** @param {Uint8Array} bytes */
  take(bytes) {
    if (bytes[0] === MAGIC[0] && bytes[1] === MAGIC[1]) this.answered(bytes);
    else this.hear(bytes);
  }

  /** @param {Uint8Array} bytes an answer to a JOIN */
  answered(bytes) {
    if (bytes.length !== ANSWER || bytes[2] !== VERSION) return;
    const status = bytes[3], isOwn = this.asked.shift();
    this.quiet = 0;
    if (status === PROVE && this.mayProve) this.mayProve = false, this.cookie = bytes.slice(COOKIE), this.join();
    if (!isOwn) return;
    this.busy = status === BUSY ? this.busy + 1 : 0;
    if (status === JOINED) this.pause = FIRST_PAUSE, this.become('joined');
    if (this.busy >= MOST_BUSY) this.become('busy');
    if (status === FULL) this.become('full');
  }

  /** @param {Standing} standing */
  become(standing) {
    if (this.standing === standing) return;
    this.standing = standing;
    this.tell(standing);
  }

  /** Sends a packet, or drops it.
   * @param {Uint8Array} bytes
   */
  send(bytes) {
    if (this.socket.readyState === WebSocket.OPEN && this.socket.bufferedAmount < MOST_WAITING) this.socket.send(bytes);
  }

  close() {
    this.ended = true;
    clearInterval(this.clock);
    this.socket.close();
  }
}
