// bench.mjs MODULE GAME: the measurements of bench.c over the module of a page, beside c8.mjs; in node, or in a page by `bench`. The answers of
// all calls are looked at before the clock runs.
import { DATA, HELLO, load, ROW, WELCOME } from './c8.mjs';

const FRAMES = 20000, WINDOW = 12, ROUNDS = 5, MANY = 500000;

const input = (player, frame) => Math.imul(frame + 1, 7919 * player) & 0xffff;

function must(holds, what) {
  if (!holds) throw new Error(`bench: ${what}`);
}

function say(from, to, number, kind) {
  must(to.deliver(from.say(number, kind)) <= 2, 'deliver');
}

/** The text of the match. */
let text;

function makeRules(c8) {
  const id = new Uint8Array(32);
  new TextEncoder().encodeInto('bench 1', id);
  text = c8.rules(2, FRAMES + WINDOW, 0, WINDOW, id);
}

/** Two players whose links are open. */
function meet(c8) {
  const [one, two] = [1, 2].map(me => c8.open(text, me, 1n));
  for (const kind of [HELLO, WELCOME]) say(one, two, 2, kind), say(two, one, 1, kind);
  for (let frame = 0; frame < WINDOW; frame++) must(one.tick(input(1, frame)) === 0, 'tick');
  return [one, two];
}

const close = sessions => sessions.forEach(it => it.close());

/** Player 1 is always a whole window ahead. The datagrams of player 2: each has one input that differs from the prediction. */
function record(c8) {
  const [one, two] = meet(c8), said = [];
  for (let frame = 0; frame < FRAMES; frame++) {
    say(one, two, 2, DATA);
    must(two.tick(input(2, frame)) === 0, 'tick');
    said.push(two.say(1, DATA));
    must(one.deliver(said[frame]) === 1, 'deliver');
    must(one.tick(input(1, frame + WINDOW)) === 0, 'tick');
  }
  close([one, two]);
  return said;
}

/** Delivers the same datagrams to a newly opened player 1. */
function rollbacks(c8, said, isStepping) {
  const [one, two] = meet(c8);
  let given = 0;
  const begun = performance.now();
  for (let frame = 0; frame < FRAMES; frame++) {
    one.deliver(said[frame]);
    one.tick(input(1, frame + WINDOW));
    if (isStepping) given += one.step(2 * WINDOW).rows.length / ROW;
  }
  const cost = (performance.now() - begun) / FRAMES;
  must(one.confirmed() === FRAMES, 'confirmed');
  // each step gives the twelve frames that were rolled back, and the new one
  must(!isStepping || given === FRAMES * (WINDOW + 1), 'rows');
  close([one, two]);
  return cost;
}

/** A call that changes nothing; `call` answers a number. */
function calls(c8, call, sum) {
  const [one, two] = meet(c8);
  one.step(2 * WINDOW);
  let came = 0;
  const begun = performance.now();
  for (let it = 0; it < MANY; it++) came += call(one);
  const cost = (performance.now() - begun) / MANY;
  must(came === sum, 'a sum');
  close([one, two]);
  return cost;
}

/** The lines that bench.c prints, with a game text. */
export async function bench(module, game) {
  const c8 = await load(module), least = Array(5).fill(Infinity);
  makeRules(c8);
  let said = record(c8);
  for (let round = 0; round < ROUNDS; round++) {
    const costs = [calls(c8, it => it.ticked(), WINDOW * MANY), calls(c8, it => it.step(2 * WINDOW).rows.length, 0), rollbacks(c8, said, false),
      rollbacks(c8, said, true)];
    costs.forEach((cost, it) => { least[it] = Math.min(least[it], cost * 1e6); });
  }
  text = new TextEncoder().encode(game);
  said = record(c8);
  for (let round = 0; round < ROUNDS; round++) least[4] = Math.min(least[4], rollbacks(c8, said, false) * 1e6);
  const rolled = 'c8_deliver and c8_tick, 12 frames';
  const names = ['c8_ticked', 'c8_step, nothing changed', `${rolled} rolled back`, 'the same and c8_step', `${rolled} of the game rolled back`];
  return names.map((name, it) => `${least[it].toFixed(1).padStart(8)} ns  ${name}\n`).join('');
}

if (globalThis.process?.argv?.[1]?.endsWith('bench.mjs')) {
  const { readFileSync } = await import('node:fs');
  process.stdout.write(await bench(readFileSync(process.argv[2]), readFileSync(process.argv[3], 'utf8')));
}
