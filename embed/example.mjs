// example.mjs MODULE: the match of example.c in node, beside c8.mjs. Two players in one process, over a queue that loses every third packet;
// prints what example.c prints.
import { readFileSync } from 'node:fs';
import { load, ROW, ROWS } from './c8.mjs';

const FRAMES = 600, FACTOR = 1000003n;

/** The machine of this game: a state of 64 bits, and a row of inputs. */
const step = (state, row) => row.reduce((sum, keys) => BigInt.asUintN(64, sum * FACTOR + BigInt(keys)), state);

class Player {
  constructor(c8, text, me) {
    Object.assign(this, { me, session: c8.open(text, me, 7n), states: [0n], rollbacks: 0 });
  }

  /** Goes back to the first frame that changed, and runs the machine from there. */
  run() {
    for (let full = true, isFirst = true; full; isFirst = false) {
      const { from, rows } = this.session.step(), count = rows.length / ROW;
      if (count && isFirst && from < this.states.length - 1) this.rollbacks++;
      if (count) this.states.length = from + 1;
      for (let it = 0; it < count; it++) this.states.push(step(this.states.at(-1), rows.subarray(ROW * it, ROW * it + ROW)));
      full = count === ROWS;
    }
  }
}

const c8 = await load(readFileSync(process.argv[2]));
const id = new Uint8Array(32);
new TextEncoder().encodeInto('example 1', id);
const text = c8.rules(2, FRAMES, 1, 8, id);
const players = [1, 2].map(me => new Player(c8, text, me));
let queue = [], sent = 0;
while (players.some(it => !it.session.isOver())) {
  for (const { to, bytes } of queue) players[to - 1].session.deliver(bytes);
  queue = [];
  for (const player of players) {
    const { session, me } = player;
    session.tick(session.ticked() * 7919 * me >> 3 & 0xffff);
    session.turn();
    for (const packet of session.packets()) if (++sent % 3) queue.push(packet);
    player.run();
  }
}
for (const { me, session, states, rollbacks } of players) {
  const state = states[FRAMES].toString(16).padStart(16, '0');
  console.log(`player ${me} ticked ${session.ticked()} confirmed ${session.confirmed()} state ${state} rolled back ${rollbacks} times`);
}
console.log(players[0].states[FRAMES] === players[1].states[FRAMES] ? 'the same' : 'different');
