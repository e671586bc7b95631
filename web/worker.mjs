// @ts-check
/**
 * Plays a match in a worker: here the files of a browser may be read and written at once, and a hidden page has no slow clock.
 * The page sends keys, and gets a picture each frame.
 * @module
 */
import { DISK, load } from './c8.mjs';
import { openJournal } from './journal.mjs';
import { WATCHERS, hex, roomName, rulesOf, sessionOf, watchersSecret } from './link.mjs';
import { Beat, Match, reportOf } from './match.mjs';
import { Picture } from './picture.mjs';
import { Relay } from './relay.mjs';
import { Spectator } from './watching.mjs';

/** @typedef {import('./link.mjs').Rules} Rules */
/** @typedef {import('./relay.mjs').Standing} Standing */
/** @typedef {import('./picture.mjs').Colors} Colors */

/**
 * What the page sends: first all that a match needs, with a canvas that the page has given away, or null if the browser cannot do that.
 * Player 0 stands for all players, at one keyboard; 5 and 6 are watchers.
 * @typedef {{ is: 'begin', text: Uint8Array, player: number, room: bigint, secret: Uint8Array, relay: string, begun: boolean,
 *   canvas: import('./picture.mjs').OffscreenCanvas | null, colors: Colors }} Begin
 * @typedef {Begin | { is: 'colors', colors: Colors } | { is: 'keys', keys: number } | { is: 'drop', player: number } | { is: 'leave' } |
 *   { is: 'journal' }} ToWorker
 */

/**
 * What the worker sends. `kept` says whether the match can go on after a reload. A screen is null if it has
 * not changed, or if the worker paints it.
 * @typedef {{ is: 'open', kept: boolean, rules: Rules, session: string }} Opened
 * @typedef {{ is: 'frame', screen: Uint8Array | null, sounds: boolean, row: import('./match.mjs').Row, relay: Standing }} Frame
 * @typedef {{ is: 'over', screen: Uint8Array, report: string, dropped: boolean, failed: string }} Over
 * @typedef {{ is: 'refused', sentence: string }} Refused
 * @typedef {Opened | Frame | Over | Refused | { is: 'journal', bytes: Uint8Array | null } | { is: 'left', screen: Uint8Array | null }} FromWorker
 */

/** After how many frames the page learns how the match stands, if nothing else has changed: a quarter of a second. */
const ROW_EVERY = 15;

/** A module with a memory of 64 bits, and nothing else. */
const MEMORY64 = Uint8Array.of(0, 0x61, 0x73, 0x6d, 1, 0, 0, 0, 5, 3, 1, 4, 1);

/** @param {FromWorker} message */
const post = message => postMessage(message);

async function loadModule() {
  const name = WebAssembly.validate(MEMORY64) ? 'c8.wasm' : 'c8-32.wasm', got = await fetch(new URL(name, import.meta.url));
  if (!got.ok) throw new Error(`The server has no ${name}, which this browser needs.`);
  return load(await got.arrayBuffer());
}

// ---- matches

/** A watcher shows one row a frame, and one more for each of this many that wait: those of a match that has begun come faster. Without
 * rows for this many milliseconds the match stands still. And how many turns open the links of players who are all here. */
const WAITING = 12, STILL = 500, OPENING = 4;

/** All players at one keyboard. Their packets arrive at once. */
class Here {
  why = '';

  /**
   * @param {import('./c8.mjs').C8} c8
   * @param {Begin} asked
   * @param {Rules} rules
   */
  constructor(c8, { text }, rules) {
    /** @type {Match[]} */
    this.matches = rules.masks.map((_, place) =>
      new Match(c8.open(text, place + 1, 0n), rules, place + 1, (to, bytes) => this.matches[to - 1].deliver(bytes)));
    this.first = this.matches[0];
    /** @type {Standing} */
    this.standing = 'joined';
  }

  /** @param {number} keys */
  frame(keys) {
    this.enter(this.matches.map(() => keys));
  }

  /** @param {number[]} row the keys of each player */
  enter(row) {
    this.matches.forEach((it, place) => it.frame(row[place]));
  }

  row() {
    return this.first.row();
  }

  close() {
    for (const it of this.matches) it.session.close();
  }
}

/** A watcher. All players are here, and tick what player 1 shows. */
class Watch extends Here {
  /**
   * @param {import('./c8.mjs').C8} c8
   * @param {Begin} asked
   * @param {Rules} rules
   */
  constructor(c8, asked, rules) {
    super(c8, asked, rules);
    const { room, player, secret, relay } = asked, number = sessionOf(rules, room);
    this.player = player;
    this.rules = rules;
    this.spectator = new Spectator(player, rules, number, secret);
    /** When player 1 was heard, and when rows came, or when the page began. */
    this.heard = this.fed = performance.now();
    this.met = false;
    /** The rows that were shown. An input is entered `delay` frames before its row. */
    this.shown = rules.delay;
    /** @type {Standing} */
    this.standing = 'calls';
    // their links open
    for (let turn = 0; turn < OPENING; turn++) for (const it of this.matches) it.frame(null);
    const places = [{ seat: player, lane: 1, name: roomName(secret, number) }];
    this.relay = new Relay(relay, places, bytes => this.take(bytes), it => { this.standing = it; });
  }

  /** @param {Uint8Array} bytes */
  take(bytes) {
    const { length } = this.spectator.rows;
    if (!this.spectator.take(bytes)) return;
    this.heard = performance.now();
    this.met = true;
    if (this.spectator.rows.length > length) this.fed = this.heard;
  }

  /** Shows the next row, and more of them if many wait; after the last one the inputs that belong to no frame. */
  frame() {
    const { rows } = this.spectator, { frames, delay } = this.rules;
    for (let count = Math.ceil((rows.length - this.shown) / WAITING); count > 0; count--) this.enter(rows[this.shown++]);
    if (rows.length === frames && this.shown >= frames && this.shown < frames + delay) this.shown++, this.enter([0, 0, 0, 0]);
    else if (this.first.session.confirmed() === frames) this.enter([0, 0, 0, 0]);
    this.relay.send(this.spectator.seen());
  }

  row() {
    const now = performance.now(), row = this.first.row(), waits = row.confirmed < row.frames && now - this.fed > STILL ? 1 : 0;
    return { ...row, player: this.player, waits, others: [{ number: 1, met: this.met, silent: now - this.heard, dropped: false }] };
  }

  close() {
    this.relay.close();
    super.close();
  }
}

/** One player, and the others behind a relay. */
class There {
  why = '';

  /**
   * @param {import('./c8.mjs').Session} session
   * @param {Begin} asked
   * @param {Rules} rules
   * @param {import('./journal.mjs').Journal | null} journal
   */
  constructor(session, { room, player, secret, relay }, rules, journal) {
    this.journal = journal;
    /** Packets that wait until the journal has what they say.
     * @type {Uint8Array[]} */
    this.due = [];
    this.isSending = false;
    const watchers = player === 1 ? watchersSecret(secret) : undefined, number = sessionOf(rules, room);
    session.secrets(secret, watchers);
    this.first = new Match(session, rules, player, (_, bytes) => this.due.push(bytes));
    /** @type {Standing} */
    this.standing = 'calls';
    const places = [{ seat: player, lane: 0, name: roomName(secret, number) }];
    if (watchers) places.push({ seat: player, lane: 1, name: roomName(watchers, number) });
    this.relay = new Relay(relay, places, bytes => this.first.deliver(bytes), it => { this.standing = it; });
  }

  /** @param {number} keys */
  frame(keys) {
    this.first.frame(keys);
    if (!this.isSending) this.send();
  }

  row() {
    return this.first.row();
  }

  /** Sends what is due, once the journal is saved. The frame is shown before that. */
  async send() {
    this.isSending = true;
    await null;
    try {
      while (this.due.length) {
        const packets = this.due;
        this.due = [];
        await this.journal?.saved();
        for (const it of packets) this.relay.send(it);
      }
    } catch (error) {
      this.first.failed = DISK;
      this.why = /** @type {Error} */ (error).message;
    }
    this.isSending = false;
  }

  close() {
    this.relay.close();
    this.first.session.close();
  }
}

/** A match that is played: its clock, and the keys that are held. */
class Play {
  /** @param {Here | There} match a Watch is a Here
   * @param {Picture | null} picture */
  constructor(match, picture) {
    this.match = match;
    this.picture = picture;
    this.keys = 0;
    this.screen = new Uint8Array(0);
    this.sounds = false;
    /** @type {Standing | ''} */
    this.standing = '';
    this.frames = 0;
    this.beat = new Beat(performance.now());
    this.timer = 0;
    this.run();
  }

  run() {
    const now = performance.now();
    if (now >= this.beat.due()) {
      this.beat.begin(now);
      this.match.frame(this.keys);
      this.show();
      if (this.match.first.isOver()) return this.end();
    }
    // timers count whole milliseconds, and one that comes too early would be set twice
    this.timer = setTimeout(() => this.run(), Math.max(0, Math.ceil(this.beat.due() - performance.now())));
  }

  /** Paints the picture, and tells the page what has changed: the tone and the relay at once, the rest now and then. */
  show() {
    const { first, standing } = this.match, { session } = first, { picture } = this, screen = session.screen(), sounds = session.tone() > 0;
    const isNew = !picture && screen.some((it, place) => it !== this.screen[place]), isDue = this.frames++ % ROW_EVERY === 0;
    this.screen = screen;
    if (picture) picture.screen = screen, picture.paint();
    if (!isNew && !isDue && sounds === this.sounds && standing === this.standing) return;
    this.sounds = sounds;
    this.standing = standing;
    post({ is: 'frame', screen: isNew ? screen : null, sounds, row: this.match.row(), relay: standing });
  }

  /** Says how the match ended, and closes it. */
  end() {
    const { first, why } = this.match, { session } = first, failed = first.failed ? why || c8.explain(first.failed) : '';
    post({ is: 'over', screen: this.screen, report: reportOf(session.confirmed(), session.state()), dropped: first.wasDropped, failed });
    this.close();
  }

  close() {
    clearTimeout(this.timer);
    this.match.close();
  }
}

/** @type {import('./c8.mjs').C8} */
let c8;
/** @type {Play | undefined} */
let play;
/** @type {Picture | null} */
let picture = null;
/** @type {import('./journal.mjs').Journal | null} */
let journal = null;

/** @param {Begin} asked */
async function begin(asked) {
  try {
    picture = asked.canvas && new Picture(asked.canvas);
    picture?.become(asked.colors);
    c8 = await loadModule();
    const { text, player } = asked, isWatcher = WATCHERS.includes(player), isPlayer = player !== 0 && !isWatcher;
    // the module judges the text; only then its numbers are read
    c8.open(text, isPlayer ? player : 1, asked.room).close();
    const rules = rulesOf(text), session = hex(sessionOf(rules, asked.room));
    journal = isPlayer ? await openJournal(`${session}.${player}.journal`) : null;
    const kept = !isPlayer || !!journal;
    if (!kept && asked.begun) throw new Error('This browser keeps no files for this page, so a match that was left cannot go on.');
    const opened = journal ? c8.openJournal(text, player, asked.room, 0, journal) : isPlayer ? c8.open(text, player, asked.room) : null;
    post({ is: 'open', kept, rules, session });
    const there = opened && new There(opened, asked, rules, journal);
    play = new Play(there ?? (isWatcher ? new Watch(c8, asked, rules) : new Here(c8, asked, rules)), picture);
  } catch (error) {
    post({ is: 'refused', sentence: /** @type {Error} */ (error).message });
  }
}

/** Reads the journal after a match. */
function readJournal() {
  post({ is: 'journal', bytes: journal?.content() ?? null });
}

onmessage = (/** @type {MessageEvent<ToWorker>} */ { data }) => {
  if (data.is === 'begin') begin(data);
  if (data.is === 'keys' && play) play.keys = data.keys;
  if (data.is === 'drop' && play) play.match.first.drop(data.player);
  if (data.is === 'journal') readJournal();
  if (data.is === 'colors') picture?.become(data.colors);
  if (data.is === 'leave') play?.close(), post({ is: 'left', screen: play?.screen ?? null });
};
