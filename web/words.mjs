// @ts-check
/** What the page says of a match, in words. @module */

/** @typedef {import('./match.mjs').Row} Row */
/** @typedef {import('./relay.mjs').Standing} Standing */

const SECOND = 1000, MINUTE = 60, RATE = 60;

/** After how many milliseconds of silence the page names the time, and player 1 may drop the player. */
export const LONG = 3000;

/** @param {number[]} numbers of players */
export function playersOf(numbers) {
  const words = numbers.map(String), last = words.pop();
  return words.length ? `players ${words.join(', ')} and ${last}` : `player ${last}`;
}

/** After how many packets in a row the others seem to know another session of this player. */
const MOST_STRANGE = 120;

/** What the match does now.
 * @param {Row} row
 * @param {Standing} relay
 */
export function stateOf(row, relay) {
  if (row.lost) return 'The others hold inputs that this browser does not have, so you cannot go on. Player 1 can drop you; or begin a new match.';
  if (relay !== 'joined') return standingOf(relay, row.player);
  if (row.differs) return 'The machines differ: something is faulty, or player 1 dropped a player.';
  // the first frames are ticked without the others
  const areThere = row.others.every(it => it.met || it.dropped), isOver = row.confirmed === row.frames;
  if (row.waits || !areThere && !isOver) return waitOf(row);
  if (isOver) return 'The game is over.';
  const there = row.others.filter(it => !it.dropped).map(it => it.number);
  return there.length ? `Playing with ${playersOf(there)}.` : 'Playing alone.';
}

/** What a watcher sees now.
 * @param {Row} row
 * @param {Standing} relay
 */
export function watchOf({ player, waits, confirmed, frames, others: [first] }, relay) {
  if (relay !== 'joined') return standingOf(relay, player);
  if (!first.met) return 'Waiting for player 1 to show the match.';
  if (confirmed === frames) return 'The game is over.';
  if (first.silent >= LONG) return `Waiting for player 1, silent for ${Math.floor(first.silent / SECOND)} seconds.`;
  return waits ? 'Waiting for the players.' : 'Watching.';
}

/** @param {Standing} relay @param {number} player */
function standingOf(relay, player) {
  switch (relay) {
    case 'calls': return 'Calling the relay …';
    case 'busy': return `Seat ${player} is taken: another browser has this link open. Trying again …`;
    case 'full': return 'The relay is full. Trying again …';
    default: return 'The relay does not answer. Trying again …';
  }
}

/** @param {Row} row */
function waitOf({ waits, others, unsealed, strange }) {
  const away = others.filter(it => !it.met && !it.dropped).map(it => it.number), silent = others.find(it => it.number === waits)?.silent ?? 0;
  if (away.length && strange > MOST_STRANGE) return 'The others do not know this browser: you began this match in another one. Go on there.';
  if (away.length && unsealed) return 'Packets come with another secret, game or room.';
  if (away.length) return `Waiting for ${playersOf(away)} to open the link.`;
  return silent < LONG ? `Waiting for player ${waits}.` : `Waiting for player ${waits}, silent for ${Math.floor(silent / SECOND)} seconds.`;
}

/** @param {number} count @param {string} thing */
const counted = (count, thing) => `${count} ${thing}${count === 1 ? '' : 's'}`;

/** How far the match is, and how well the network does.
 * @param {Row} row
 */
export function numbersOf({ confirmed, frames, others, rollbacks, longest }) {
  const heard = others.filter(it => it.met && !it.dropped).map(it => `player ${it.number} heard ${Math.round(it.silent)} ms ago`);
  const back = rollbacks ? [`${counted(rollbacks, 'rollback')}, longest ${counted(longest, 'frame')}`] : [];
  return [clockOf({ confirmed, frames }), ...heard, ...back].join(' · ');
}

/** How long the game still lasts, in minutes and seconds.
 * @param {{ confirmed: number, frames: number }} row
 */
export function clockOf({ confirmed, frames }) {
  const seconds = Math.ceil((frames - confirmed) / RATE);
  return `${Math.floor(seconds / MINUTE)}:${String(seconds % MINUTE).padStart(2, '0')} left`;
}

/** What a match does whose players are all here.
 * @param {Row} row
 */
export const hereOf = row => row.confirmed === row.frames ? 'The game is over.' : 'Playing here.';

/** How a match ended here: a title, and more.
 * @param {{ dropped: boolean, failed: string }} over
 * @param {boolean} isPlayer against others
 */
export function endOf({ dropped, failed }, isPlayer) {
  if (dropped) return ['Player 1 has dropped you.', 'The others play on without you.'];
  if (failed) return ['The match ended here.', failed];
  return ['The game is over.', isPlayer ? 'All players have the same result.' : ''];
}
