// @ts-check
/**
 * Both players of a match on one screen, over a network that delays and loses as its sliders say. Each has a module of its own. A
 * player that is killed loses its module, and all that its journal's file was not asked to flush; it comes back from the rest.
 * tools/page packs this into one file, with the module and a game as texts.
 * @module
 */
import { load } from './c8.mjs';
import { rulesOf } from './link.mjs';
import { Beat, Match, reportOf } from './match.mjs';
import { Keys } from './keys.mjs';
import { COLUMNS, Picture, ROWS, followColors } from './picture.mjs';

/** @typedef {import('./c8.mjs').JournalFile} JournalFile */

const SHOWN = 90, STRIP = 56;
const ROLES = [{ up: 1, down: 4, fire: 7 }, { up: 12, down: 13, fire: 14 }];
/** After how many milliseconds without a key some are pressed by chance, and for how many frames each. */
const IDLE = 10000, STROKE = 20;

/** @template {HTMLElement} T @param {string} id @returns {T} */
const part = id => /** @type {T} */ (document.getElementById(id));
/** @param {string} id */
const numberOf = id => Number(/** @type {HTMLInputElement} */ (part(id)).value);

/** A file in memory. A crash leaves what was flushed.
 * @implements {JournalFile}
 */
class MemoryFile {
  constructor() {
    /** What would be read now, and what a crash leaves. */
    this.now = new Uint8Array(0);
    this.safe = new Uint8Array(0);
  }

  /** @param {Uint8Array} bytes @param {{ at: number }} options */
  read(bytes, { at }) {
    const part = this.now.subarray(at, at + bytes.length);
    bytes.set(part);
    return part.length;
  }

  /** @param {Uint8Array} bytes @param {{ at: number }} options */
  write(bytes, { at }) {
    this.now = this.grown(this.now, at + bytes.length);
    this.now.set(bytes, at);
    this.changed.push([at, bytes.slice()]);
    return bytes.length;
  }

  /** @type {[number, Uint8Array][]} */ changed = [];

  /** Bytes with more room behind them.
   * @param {Uint8Array} bytes
   * @param {number} size
   */
  grown(bytes, size) {
    if (size <= bytes.length) return bytes;
    if (size <= bytes.buffer.byteLength) return new Uint8Array(bytes.buffer, 0, size);
    const room = new Uint8Array(new ArrayBuffer(2 * size), 0, size);
    room.set(bytes);
    return room;
  }

  getSize() {
    return this.now.length;
  }

  flush() {
    for (const [at, bytes] of this.changed) this.safe = this.grown(this.safe, at + bytes.length), this.safe.set(bytes, at);
    this.changed = [];
  }

  close() {}

  crash() {
    this.changed = [];
    this.now = this.safe.slice();
  }
}

/** A player, with its place on the screen. */
class Seat {
  /** @param {Show} show @param {number} number */
  constructor(show, number) {
    this.show = show;
    this.number = number;
    this.file = new MemoryFile();
    /** @type {Match | null} */
    this.match = null;
    this.report = '';
    this.last = 0;
    /** When a frame was run again.
     * @type {Map<number, number>}
     */
    this.again = new Map();
    const box = document.createElement('section');
    box.className = 'player';
    box.innerHTML = `<div class="head"><h2>Player ${number}</h2><button type="button">Kill player ${number}</button></div>
      <canvas class="picture" width="${COLUMNS}" height="${ROWS}" role="img" aria-label="What player ${number} sees"></canvas>
      <canvas class="strip" height="${STRIP}" role="img" aria-label="The last frames of player ${number}"></canvas>
      <p class="said"></p>`;
    this.box = box;
    this.button = /** @type {HTMLButtonElement} */ (box.querySelector('button'));
    this.said = /** @type {HTMLElement} */ (box.querySelector('.said'));
    this.picture = new Picture(/** @type {HTMLCanvasElement} */ (box.querySelector('.picture')));
    followColors(it => this.picture.become(it));
    this.strip = /** @type {HTMLCanvasElement} */ (box.querySelector('.strip'));
    this.button.onclick = () => this.match ? this.kill() : this.open();
    part('players').append(box);
  }

  async open() {
    const c8 = await load(this.show.module), session = c8.openJournal(this.show.text, this.number, this.show.room, 0, this.file);
    this.match = new Watched(this, session, this.show.rules, this.number, (to, bytes) => this.show.carry(to, bytes));
    this.button.textContent = `Kill player ${this.number}`;
    this.box.classList.remove('dead');
  }

  kill() {
    this.match = null;
    this.file.crash();
    this.again.clear();
    this.button.textContent = `Start player ${this.number} again from its journal`;
    this.box.classList.add('dead');
  }

  /** Draws the picture, and a column for each of the last frames. */
  draw() {
    const { match } = this;
    if (!match) return;
    const { session } = match, row = match.row();
    this.picture.screen = session.screen();
    this.picture.paint();
    this.drawStrip(row.ticked, row.confirmed);
    const does = row.waits ? `waits for player ${row.waits}` : 'plays';
    const count = `${row.rollbacks} rollback${row.rollbacks === 1 ? '' : 's'}`, back = `${count} in the last second, longest ${row.longest}`;
    this.said.textContent = `Frame ${row.ticked}, confirmed ${row.confirmed}: ${does}. ${back}. Deaths: ${session.epoch() - 1}.`;
  }

  /** @param {number} ticked @param {number} confirmed */
  drawStrip(ticked, confirmed) {
    const { strip } = this, scale = devicePixelRatio || 1, width = Math.floor(strip.clientWidth * scale);
    if (strip.width !== width) strip.width = width, strip.height = STRIP * scale;
    const context = /** @type {CanvasRenderingContext2D} */ (strip.getContext('2d')), step = width / SHOWN, first = Math.max(0, ticked - SHOWN);
    context.clearRect(0, 0, width, strip.height);
    for (let frame = first; frame < ticked; frame++) {
      const age = performance.now() - (this.again.get(frame) ?? -Infinity), isBack = age < 700, high = strip.height * (isBack ? 0.9 : 0.45);
      context.globalAlpha = isBack ? 1 - age / 1000 : 1;
      context.fillStyle = isBack ? this.show.colors.back : frame < confirmed ? this.show.colors.main : this.show.colors.ahead;
      context.fillRect((frame - first) * step, strip.height - high, Math.max(1, step - scale), high);
    }
    context.globalAlpha = 1;
    for (const frame of this.again.keys()) if (frame < first) this.again.delete(frame);
  }
}

/** A match that tells which frames it took back. */
class Watched extends Match {
  /**
   * @param {Seat} seat
   * @param {import('./c8.mjs').Session} session
   * @param {import('./link.mjs').Rules} rules
   * @param {number} player
   * @param {(to: number, bytes: Uint8Array) => void} send
   */
  constructor(seat, session, rules, player, send) {
    super(session, rules, player, send);
    this.seat = seat;
  }

  follow() {
    const before = this.stepped, back = super.follow();
    for (let frame = before - back; frame < before; frame++) this.seat.again.set(frame, performance.now());
    return back;
  }
}

class Show {
  /** @param {Uint8Array} module @param {string} game */
  constructor(module, game) {
    this.module = module;
    this.game = game;
    this.text = new TextEncoder().encode(game);
    this.rules = rulesOf(this.text);
    this.room = 0n;
    this.stop = Infinity;
    this.colors = { main: '', ahead: '', back: '' };
    this.keys = 0;
    this.pressed = 0;
    new Keys(keys => { this.keys = keys; this.pressed = performance.now(); }, ROLES);
    for (const it of ['delay', 'jitter', 'loss']) part(it).oninput = () => this.tellNetwork();
    part('finish').onclick = () => this.finish();
    part('again').onclick = () => this.begin();
    matchMedia('(prefers-color-scheme: dark)').onchange = () => this.readColors();
    this.tellNetwork();
    this.readColors();
    this.beat = new Beat(performance.now());
    setInterval(() => this.run(), 4);
    const look = () => { for (const it of this.seats) it.draw(); requestAnimationFrame(look); };
    look();
  }

  /** @type {Seat[]} */ seats = [];

  readColors() {
    const style = getComputedStyle(document.documentElement), color = (/** @type {string} */ name) => style.getPropertyValue(name);
    this.colors = { main: color('--main'), ahead: color('--ahead'), back: color('--back') };
  }

  tellNetwork() {
    part('delay-is').textContent = `${numberOf('delay')} ms`;
    part('jitter-is').textContent = `± ${numberOf('jitter')} ms`;
    part('loss-is').textContent = `${numberOf('loss')} %`;
  }

  async begin() {
    this.room++;
    this.stop = Infinity;
    part('players').replaceChildren();
    part('verdict').textContent = '';
    part('again').hidden = part('reports').hidden = true;
    part('finish').hidden = false;
    const seats = [1, 2].map(it => new Seat(this, it));
    for (const it of seats) await it.open();
    this.seats = seats;
  }

  /** Carries a packet as the network does.
   * @param {number} to
   * @param {Uint8Array} bytes
   */
  carry(to, bytes) {
    if (Math.random() * 100 < numberOf('loss')) return;
    const late = numberOf('delay') + (2 * Math.random() - 1) * numberOf('jitter'), { room } = this;
    setTimeout(() => { if (room === this.room) this.seats[to - 1]?.match?.deliver(bytes); }, Math.max(0, late));
  }

  run() {
    for (let now = performance.now(); now >= this.beat.due(); ) {
      this.beat.begin(now);
      for (const it of this.seats) this.frame(it);
    }
  }

  /** @param {Seat} seat */
  frame(seat) {
    const { match } = seat;
    if (!match) return;
    match.frame(match.session.ticked() < this.stop ? this.keysOf(seat) : null);
    if (!seat.report && match.session.confirmed() >= this.stop) this.compare(seat);
  }

  /** The keys that are held, or some by chance after ten seconds without any.
   * @param {Seat} seat
   */
  keysOf({ number, match }) {
    const isIdle = performance.now() - this.pressed > IDLE || !this.pressed;
    if (!isIdle || !(/** @type {HTMLInputElement} */ (part('self'))).checked) return this.keys;
    const stroke = Math.floor((match?.session.ticked() ?? 0) / STROKE), { up, down, fire } = ROLES[number - 1];
    const chance = Math.abs(Math.sin(stroke * 12.9898 + number * 78.233) * 43758.5453) % 1;
    return chance < 0.35 ? 1 << up : chance < 0.7 ? 1 << down : chance < 0.8 ? 1 << fire : 0;
  }

  /** Ends the match where the faster player is: both play up to there, and confirm it. */
  finish() {
    this.stop = Math.max(...this.seats.map(it => it.match?.session.ticked() ?? 0)) + 1;
    for (const it of this.seats) if (!it.match) it.open();
    part('verdict').textContent = 'Waiting until both have confirmed all frames …';
    part('finish').hidden = true;
  }

  /** @param {Seat} seat */
  compare(seat) {
    const { session } = /** @type {Match} */ (seat.match);
    seat.report = reportOf(session.confirmed(), session.state());
    const [one, two] = this.seats.map(it => it.report);
    if (!one || !two) return;
    part('verdict').textContent = one === two ? `Both reports are equal, after ${session.confirmed()} frames.` : 'The reports differ.';
    part('report').textContent = `player 1\n${one}\nplayer 2\n${two}`;
    part('reports').hidden = part('again').hidden = false;
  }
}

/** @param {string} id */
const textOf = id => (part(id).textContent ?? '').trim();

/** The bytes of a text that tools/page packed.
 * @param {string} text
 */
const unpacked = async text => {
  const packed = new Blob([Uint8Array.from(atob(text), it => it.charCodeAt(0))]);
  // which older checkers of types do not know
  const { DecompressionStream } = /** @type {any} */ (globalThis);
  return new Uint8Array(await new Response(packed.stream().pipeThrough(new DecompressionStream('gzip'))).arrayBuffer());
};

const module = await unpacked(textOf('module')).catch(() => null);
if (module) {
  const show = new Show(module, textOf('game'));
  show.begin();
  Object.assign(globalThis, { show });
} else {
  part('verdict').textContent = 'This page needs a newer browser: Chrome 89, Firefox 113, Safari 16.4, or one after them.';
}
