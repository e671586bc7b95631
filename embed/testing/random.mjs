// random.mjs MODULE [CALLS]: calls at random over the module of a page, beside c8.mjs, as random.c makes them over a library; in node, or in a
// page by `random`. No call fails, each answer has a meaning, and only an opening takes memory.
import { BAD_SECRET, CLOSED, load, NOT_SEALED, PACKET, ROW, SEEN_BEFORE, WATCHER } from './c8.mjs';

const OPENING = 10000, MAIL = 64, PLAYERS = 3;
// This number of calls has each kind of answer.
const ENOUGH = 100000;
// A block of web/page.c has a head, and is a multiple of it; memory grows by pages.
const HEAD = 16, PAGE = 65536;
const SECRET = Uint8Array.from({ length: 32 }, (_, it) => it), WATCHERS = new Uint8Array(32);

let dice = 1;

function roll(sides) {
  dice ^= dice << 13;
  dice ^= dice >>> 17;
  dice ^= dice << 5;
  return (dice >>> 0) % sides;
}

const anyBytes = length => Uint8Array.from({ length }, () => roll(256));

/** All free memory of the module is taken while calls run. So a call that takes some makes the memory grow, also if it gives it back. */
class Memory {
  constructor(c8) {
    Object.assign(this, { c8, taken: [] });
  }

  get size() {
    return this.c8.exports.memory.buffer.byteLength;
  }

  /** Takes the smallest blocks until the memory has grown by a page, and then the rest of that page. */
  drain() {
    const before = this.size;
    while (this.size === before) this.taken.push(this.c8.take(HEAD));
    if (this.size !== before + PAGE) throw new Error('the memory grew by more than a page');
    this.taken.push(this.c8.take(PAGE - 3 * HEAD));
    this.full = this.size;
    this.blocks = this.c8.exports.page_blocks();
    if (this.full !== before + PAGE) throw new Error('the last page was not taken whole');
  }

  /** Gives back what was taken. */
  free() {
    this.taken.sort((a, b) => a - b).forEach(it => this.c8.exports.page_give(BigInt(it)));
    this.taken = [];
  }

  look(what) {
    if (this.size !== this.full || this.c8.exports.page_blocks() !== this.blocks) throw new Error(`${what} took memory`);
  }
}

class Calls {
  constructor(c8) {
    Object.assign(this, { c8, memory: new Memory(c8), sessions: [], sealed: [], mail: [], kept: 0, begun: 0, counts: {} });
  }

  count(what) {
    this.counts[what] = (this.counts[what] ?? 0) + 1;
  }

  /** An answer is 0, 1 or 2, or a refusal that has a name. */
  answered(answer) {
    if (answer > 2 && !this.c8.explain(answer)) throw new Error(`an answer without a name: ${answer}`);
    return answer;
  }

  text() {
    if (roll(10)) return this.c8.rules(PLAYERS, 2000, 1, 6, Uint8Array.from({ length: 32 }, () => 1));
    const text = this.c8.rules(roll(7), roll(300000), roll(6), roll(15), anyBytes(32));
    if (text.length && roll(3) === 0) text[roll(text.length)] = roll(256);
    return roll(2) ? text : text.subarray(0, roll(text.length + 1));
  }

  openOne(place, text) {
    this.count('openings');
    this.sessions[place]?.close();
    this.sessions[place] = null;
    try {
      const watches = place === PLAYERS && roll(2) === 1, session = watches ? this.c8.watch(text, 4 + roll(4), 1n, ++this.begun)
        : this.c8.open(text, place < PLAYERS && roll(16) ? place + 1 : roll(7), place < PLAYERS ? 1n : BigInt(roll(3)), roll(8) ? 0 : 300);
      this.sessions[place] = session;
      this.sealed[place] = this.hasSecret;
      if (watches !== (session.check(0) === WATCHER)) throw new Error('a watcher plays');
      if (this.hasSecret && (watches ? session.secrets(WATCHERS) : session.secrets(SECRET, roll(2) ? WATCHERS : undefined))) throw new Error('no secret');
    } catch (refusal) {
      if (!refusal.number) throw refusal;
      this.answered(refusal.number);
    }
  }

  openAll() {
    const text = this.text();
    this.hasSecret = roll(2) === 1;
    for (let place = 0; place <= PLAYERS; place++) this.openOne(place, text);
  }

  /** Opens and closes, with all memory that there is. */
  opening(open) {
    this.memory.free();
    open();
    this.memory.drain();
  }

  keep(bytes, to) {
    if (bytes.length > PACKET) throw new Error('too long');
    this.mail[++this.kept % MAIL] = { bytes, to };
  }

  deliver(place) {
    const kind = roll(16), last = this.mail[(this.kept - roll(roll(4) ? 4 : MAIL) + MAIL) % MAIL];
    let bytes = anyBytes(roll(301));
    if (kind < 14 && last) {
      bytes = last.bytes.slice();
      if (kind > 1) place = Math.min(last.to - 1, PLAYERS);
      if (kind === 2 && !roll(20)) bytes[roll(bytes.length)] ^= 1 << roll(8);
      if (kind === 3) bytes = bytes.subarray(0, roll(bytes.length + 1));
    }
    const session = this.sessions[place];
    if (!session) return;
    const answer = this.answered(session.deliver(bytes)), { seat } = session.sender(), isRefused = answer === NOT_SEALED || answer === SEEN_BEFORE;
    if ((seat !== 0) !== (this.sealed[place] && !isRefused)) throw new Error(`a sender: ${seat}`);
    this.count(isRefused ? 'not taken' : answer > 2 ? 'refused' : answer ? 'kept' : 'without news');
  }

  next(session) {
    const packet = session.next();
    if (!packet) return;
    if (packet.to < 1 || packet.to > 6) throw new Error(`to nobody: ${packet.to}`);
    this.keep(packet.bytes, packet.to);
  }

  say(session) {
    const to = roll(6), said = session.say(to, roll(8), roll(6));
    if (typeof said === 'number') this.answered(said);
    else this.keep(said, to);
  }

  step(session) {
    const most = roll(25), { from, rows } = session.step(most), count = rows.length / ROW;
    if (count > most || (count && from + count > session.ticked())) throw new Error('rows');
    if (count) this.count('steps');
  }

  read(session) {
    if (session.confirmed() > session.ticked()) throw new Error('confirmed');
    session.player(roll(7)), session.tone(), session.isOver(), session.isLost(), session.epoch();
    if (!roll(8)) session.screen(), session.state(), session.mark();
  }

  secret(place) {
    const length = roll(65), isBad = length !== 0 && length !== 32, session = this.sessions[place];
    const mustFail = isBad || roll(100) > 0, answer = this.answered(session.secrets(SECRET, isBad ? anyBytes(length) : mustFail ? SECRET : undefined));
    if (answer === CLOSED || (mustFail && answer !== BAD_SECRET)) throw new Error(`a secret: ${answer}`);
    if (!answer) this.sealed[place] = true;
  }

  change(session) {
    switch (roll(12)) {
      case 0: if (!roll(200)) this.answered(session.leave(roll(6))); break;
      case 1: if (!roll(20)) this.answered(session.decide(roll(6))); break;
      case 2: this.answered(session.checkpoint()); break;
      case 3: this.answered(session.check([0, 0, 1, 5, 20, 0xffffffff][roll(6)])); break;
      case 4: this.answered(session.watched(roll(8))); break;
      case 5: case 6: case 7: this.answered(session.turn()); break;
      default: if (!this.answered(session.tick(roll(65536)))) this.count('ticks');
    }
  }

  /** Any call but an opening and a close; what it was. */
  call() {
    const place = roll(PLAYERS + 1), session = this.sessions[place], kind = roll(16);
    if (!session || kind < 6) return this.deliver(place), 'c8_deliver';
    if (kind === 6) return this.read(session), 'readers';
    if (kind === 7) return this.say(session), 'c8_say';
    if (kind === 8) return this.c8.explain(roll(1500)), this.c8.rules(roll(8), roll(400000), roll(256), roll(256), anyBytes(32)), 'c8_rules';
    if (kind === 9 && !roll(8)) return this.secret(place), 'c8_secrets';
    if (kind < 11) return this.step(session), 'c8_step';
    if (kind < 13) return this.next(session), 'c8_next';
    return this.change(session), 'a change';
  }
}

/** A line about so many calls. */
export async function random(module, most) {
  const c8 = await load(module), calls = new Calls(c8);
  dice = 1;
  for (let it = 0; it < most; it++) {
    if (it % OPENING === 0) calls.opening(() => calls.openAll());
    else if (roll(OPENING) === 0) calls.opening(() => calls.openOne(roll(PLAYERS + 1), calls.text()));
    else calls.memory.look(calls.call());
  }
  const missing = ['openings', 'ticks', 'steps', 'kept', 'refused', 'not taken'].filter(it => !calls.counts[it]);
  if (most >= ENOUGH && missing.length) throw new Error(`no ${missing.join(', ')}`);
  return `random: ${most} calls, fine\n`;
}

if (globalThis.process?.argv?.[1]?.endsWith('random.mjs')) {
  const { readFileSync } = await import('node:fs');
  process.stdout.write(await random(readFileSync(process.argv[2]), Number(process.argv[3] ?? 100000)));
}
