// agree.mjs MODULE GAME..: the calls of agree.c in the module of the page; in node, or in a page by `agree`.
import { load } from './c8.mjs';

const TURNS = 4000, QUEUE = 4096, PLAYERS = 4, NUMBERS = [1, 2, 3, 4], CLOSED = 101;
let dice = 0, sum = 0;

function roll(sides) {
  dice ^= dice << 13;
  dice ^= dice >>> 17;
  dice ^= dice << 5;
  return (dice >>> 0) % sides;
}

const add = word => { sum = Math.imul(sum ^ Number(word), 16777619); };
const addAll = words => { for (const it of words) add(it); };
const first = (length, word) => Uint8Array.from({ length }, (_, it) => it === 0 ? word : 0);

/** One match of all players, over one queue. */
class Game {
  constructor(c8, text, isSealed) {
    Object.assign(this, { queue: [], keys: [0, 0, 0, 0, 0], sessions: [null] });
    for (const me of NUMBERS) this.open(c8, text, me, isSealed);
    this.players = this.sessions.filter(it => it).length;
    add(this.sessions[1].watched(5));
  }

  open(c8, text, me, isSealed) {
    let session = null;
    try {
      session = c8.open(text, me, 9n, 300);
      add(0);
    } catch (refusal) {
      add(refusal.number);
    }
    if (isSealed) add(session ? session.secrets(first(32, 7), me === 1 ? first(32, 8) : undefined) : CLOSED);
    this.sessions.push(session);
  }

  deliver() {
    const packets = this.queue;
    this.queue = [];
    for (const { to, bytes } of packets) {
      const session = this.sessions[to];
      add(session ? session.deliver(bytes) : CLOSED);
      const { seat, newest } = session ? session.sender() : { seat: 0, newest: false };
      add(seat), add(newest);
    }
  }

  carry(bytes, to) {
    const chance = roll(100), packet = bytes.slice();
    if (chance < 20 || to > PLAYERS) return;
    if (chance < 24) {
      const place = roll(bytes.length);
      packet[place] ^= 1 + roll(255);
    }
    for (let copies = chance > 90 ? 2 : 1; copies > 0; copies--) if (this.queue.length < QUEUE) this.queue.push({ to, bytes: packet });
  }

  look(session, turn) {
    const { from, rows } = session.step();
    add(rows.length / 4), add(rows.length ? from : 0), addAll(rows);
    add(session.ticked()), add(session.confirmed()), add(session.isOver()), add(session.isLost()), add(session.tone());
    if (turn % 16) return;
    addAll(session.state()), addAll(session.screen());
    for (const it of NUMBERS) {
      const { silent, held, acknowledged, linked, dropped } = session.player(it);
      addAll([0, silent, held, acknowledged, linked, dropped]);
    }
  }

  turn(turn) {
    this.deliver();
    for (let me = 1; me <= this.players; me++) {
      const session = this.sessions[me];
      if (roll(6) === 0) this.keys[me] = roll(65536);
      if (me === 2 && turn > TURNS / 2 && this.players > 2) continue;
      if (roll(8)) add(session.tick(this.keys[me]));
      add(session.turn());
      for (const { to, bytes } of session.packets()) add(bytes.length), add(to), addAll(bytes), this.carry(bytes, to);
      this.look(session, turn);
    }
  }

  end() {
    const [, chair] = this.sessions, hash = (sum >>> 0).toString(16).padStart(8, '0');
    const line = `${this.players} players, confirmed ${chair.confirmed()} of ${chair.ticked()}, sum ${hash}`;
    for (const it of this.sessions) it?.close();
    return line;
  }
}

function play(c8, text, isSealed) {
  dice = 12345;
  sum = 2166136261 | 0;
  const game = new Game(c8, text, isSealed), blocks = c8.exports.page_blocks();
  for (let turn = 0; turn < TURNS; turn++) game.turn(turn);
  if (c8.exports.page_blocks() !== blocks) throw new Error('a turn took memory');
  return game.end();
}

/** The lines of these texts, and of the one of `rules`. */
export async function agree(module, texts) {
  const c8 = await load(module), lines = texts.map((text, place) => play(c8, text, place % 2 === 1));
  return [...lines, play(c8, c8.rules(3, 5000, 2, 8, first(32, 3)), true)];
}

if (globalThis.process?.argv?.[1]?.endsWith('agree.mjs')) {
  const { readFileSync } = await import('node:fs'), [module, ...games] = process.argv.slice(2);
  console.log((await agree(readFileSync(module), games.map(it => readFileSync(it)))).join('\n'));
}
