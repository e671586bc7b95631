// @ts-check
/**
 * What stands behind the `#` of a link, and what follows from it: the numbers of a game text, the session of a match, the
 * names of its rooms at a relay. docs/FORMATS.md has the bytes. A page that is not from https has no `crypto.subtle`, so
 * SHA-256 and HMAC are here.
 * @module
 */

// ---- SHA-256 (FIPS 180-4) and HMAC (RFC 2104)

/** The first 32 bits behind the point of the cube roots (or square roots) of the first primes.
 * @param {number} count
 * @param {(prime: number) => number} root
 */
const roots = (count, root) => {
  const primes = [2];
  for (let it = 3; primes.length < count; it += 2) if (primes.every(prime => it % prime)) primes.push(it);
  return Uint32Array.from(primes, prime => (root(prime) % 1) * 2 ** 32);
};
const CONSTANTS = roots(64, Math.cbrt), START = roots(8, Math.sqrt);

/** @param {number} word @param {number} by */
const turned = (word, by) => (word >>> by) | (word << (32 - by));

/** Takes one block of 64 bytes into a hash.
 * @param {Uint32Array} hash
 * @param {DataView} view
 * @param {number} at
 */
function compress(hash, view, at) {
  const w = new Uint32Array(64);
  for (let i = 0; i < 16; i++) w[i] = view.getUint32(at + 4 * i);
  for (let i = 16; i < 64; i++) {
    const early = turned(w[i - 15], 7) ^ turned(w[i - 15], 18) ^ (w[i - 15] >>> 3);
    const late = turned(w[i - 2], 17) ^ turned(w[i - 2], 19) ^ (w[i - 2] >>> 10);
    w[i] = w[i - 16] + early + w[i - 7] + late;
  }
  let [a, b, c, d, e, f, g, h] = hash;
  for (let i = 0; i < 64; i++) {
    const one = h + (turned(e, 6) ^ turned(e, 11) ^ turned(e, 25)) + ((e & f) ^ (~e & g)) + CONSTANTS[i] + w[i];
    const two = (turned(a, 2) ^ turned(a, 13) ^ turned(a, 22)) + ((a & b) ^ (a & c) ^ (b & c));
    [h, g, f, e, d, c, b, a] = [g, f, e, (d + one) | 0, c, b, a, (one + two) | 0];
  }
  [a, b, c, d, e, f, g, h].forEach((it, i) => { hash[i] += it; });
}

/** @param {Uint8Array} bytes */
export function sha256(bytes) {
  const padded = new Uint8Array((bytes.length + 72) >> 6 << 6), view = new DataView(padded.buffer), hash = START.slice();
  padded.set(bytes);
  padded[bytes.length] = 0x80;
  view.setBigUint64(padded.length - 8, BigInt(bytes.length) * 8n);
  for (let at = 0; at < padded.length; at += 64) compress(hash, view, at);
  const out = new DataView(new ArrayBuffer(32));
  hash.forEach((it, i) => out.setUint32(4 * i, it));
  return new Uint8Array(out.buffer);
}

/** HMAC-SHA256. The key has at most 64 bytes.
 * @param {Uint8Array} key
 * @param {Uint8Array} bytes
 */
export function hmac(key, bytes) {
  const padded = (/** @type {number} */ by) => Uint8Array.from({ length: 64 }, (_, i) => (key[i] ?? 0) ^ by);
  return sha256(joined(padded(0x5c), sha256(joined(padded(0x36), bytes))));
}

// ---- bytes and texts

/** @param {Uint8Array[]} parts */
export function joined(...parts) {
  const all = new Uint8Array(parts.reduce((sum, it) => sum + it.length, 0));
  let at = 0;
  for (const it of parts) all.set(it, at), at += it.length;
  return all;
}

/** @param {string} text */
export const bytesOf = text => new TextEncoder().encode(text);

/** A number of 64 bits in 8 bytes.
 * @param {bigint} number
 */
export function word(number) {
  const view = new DataView(new ArrayBuffer(8));
  view.setBigUint64(0, number);
  return new Uint8Array(view.buffer);
}

/** @param {Uint8Array} bytes */
export const hex = bytes => Array.from(bytes, it => it.toString(16).padStart(2, '0')).join('');

/** Base64url without padding (RFC 4648, section 5).
 * @param {Uint8Array} bytes
 */
export function spell(bytes) {
  let text = '';
  for (const it of bytes) text += String.fromCharCode(it);
  return btoa(text).replaceAll('+', '-').replaceAll('/', '_').replaceAll('=', '');
}

/** The bytes of base64url, or null if it is none. Bytes have one spelling.
 * @param {string} text
 */
export function unspell(text) {
  if (!/^[\w-]*$/.test(text) || text.length % 4 === 1) return null;
  const bytes = Uint8Array.from(atob(text.replaceAll('-', '+').replaceAll('_', '/')), it => it.charCodeAt(0));
  return spell(bytes) === text ? bytes : null;
}

// ---- the numbers of a game text. The module reads the text itself; this is for what a page shows and names.

/**
 * @typedef {object} Rules
 * @property {number} players
 * @property {number} ipf
 * @property {number} frames
 * @property {number} delay
 * @property {number} window
 * @property {bigint} seed
 * @property {number} wire
 * @property {number[]} masks one for each player
 * @property {Uint8Array} code
 */

/** Reads a game text that the module has accepted.
 * @param {Uint8Array} text
 * @returns {Rules}
 */
export function rulesOf(text) {
  /** @type {Map<string, string>} */
  const values = new Map();
  for (const line of new TextDecoder().decode(text).split(/\r?\n/)) {
    const [, name, value] = /^(\w+) (\S+)$/.exec(line) ?? [];
    if (name) values.set(name, (name === 'code' ? values.get(name) ?? '' : '') + value);
  }
  const number = (/** @type {string} */ name, other = '0') => Number(values.get(name) ?? other);
  const players = number('players');
  return {
    players,
    ipf: number('ipf'),
    frames: number('frames'),
    delay: number('delay'),
    window: number('window'),
    seed: BigInt(values.get('seed') ?? 0),
    wire: number('wire', '1'),
    masks: Array.from({ length: players }, (_, i) => parseInt(values.get(`mask${i + 1}`) ?? '0', 16)),
    code: Uint8Array.from((values.get('code') ?? '').match(/../g) ?? [], it => parseInt(it, 16)),
  };
}

/** The id of a game.
 * @param {Rules} rules
 */
export function gameId(rules) {
  const view = new DataView(new ArrayBuffer(26)), { players, ipf, frames, delay, window, seed, masks, code } = rules;
  view.setUint8(0, players);
  view.setUint8(1, ipf);
  view.setUint32(2, frames);
  view.setUint8(6, delay);
  view.setUint8(7, window);
  view.setBigUint64(8, seed);
  masks.forEach((it, i) => view.setUint16(16 + 2 * i, it));
  view.setUint16(24, code.length);
  return sha256(joined(new Uint8Array(view.buffer), code, Uint8Array.of(...rules.wire === 2 ? [2] : [])));
}

/** The session of a match, 8 bytes.
 * @param {Rules} rules
 * @param {bigint} room
 */
export const sessionOf = (rules, room) => sha256(joined(gameId(rules), word(room))).slice(0, 8);

/** The name of a room at a relay, 16 bytes.
 * @param {Uint8Array} secret of the players, or of the watchers for their lane
 * @param {Uint8Array} session
 */
export const roomName = (secret, session) => hmac(secret, joined(bytesOf('c8play relay 1'), session)).slice(0, 16);

/** The secret of the watchers of a match that is played by links.
 * @param {Uint8Array} secret of the players
 */
export const watchersSecret = secret => hmac(secret, bytesOf('c8play watchers 1'));

// ---- links

/** The seats of players, then those of watchers. */
export const PLAYERS = [1, 2, 3, 4], WATCHERS = [5, 6];
const VERSION = 1, SECRET = 32, FIXED = 2 + 8 + SECRET, LONGEST = 8192, MOST_ROOM = 2n ** 64n - 1n;

/**
 * What a link says. It has a game text, or the name of a game of the server.
 * @typedef {{ seat: number, room: bigint, secret: Uint8Array, text: Uint8Array | null, game: string | null }} Link
 */

/** What follows the `#` of a link with a game text.
 * @param {{ seat: number, room: bigint, secret: Uint8Array, text: Uint8Array }} link
 */
export function spellLong({ seat, room, secret, text }) {
  return spell(joined(Uint8Array.of(VERSION, seat), word(room), secret, text));
}

/** What follows the `#` of a link with a game of the server.
 * @param {{ seat: number, room: bigint, secret: Uint8Array, game: string }} link
 */
export function spellShort({ seat, room, secret, game }) {
  return `${room}.${spell(secret)}.${seat}.${game}`;
}

/** Reads what follows the `#` of a link; null if it is none.
 * @param {string} text
 * @returns {Link | null}
 */
export function readLink(text) {
  if (text.length > LONGEST) return null;
  return text.includes('.') ? readShort(text) : readLong(text);
}

/** @param {number} seat */
const isSeat = seat => PLAYERS.includes(seat) || WATCHERS.includes(seat);

/** @param {string} text @returns {Link | null} */
function readLong(text) {
  const bytes = unspell(text);
  if (!bytes || bytes.length <= FIXED || bytes[0] !== VERSION || !isSeat(bytes[1])) return null;
  const room = new DataView(bytes.buffer).getBigUint64(2);
  return { seat: bytes[1], room, secret: bytes.slice(10, FIXED), text: bytes.slice(FIXED), game: null };
}

/** @param {string} text @returns {Link | null} */
function readShort(text) {
  const [, digits, spelt, seat, game] = /^(0|[1-9]\d{0,19})\.([\w-]{43})\.([1-6])\.([\w-]{1,64})$/.exec(text) ?? [];
  const secret = unspell(spelt ?? '');
  if (!game || secret?.length !== SECRET || BigInt(digits) > MOST_ROOM) return null;
  return { seat: Number(seat), room: BigInt(digits), secret, text: null, game };
}

/** A room and a secret that nobody else has. */
export function drawMatch() {
  const secret = crypto.getRandomValues(new Uint8Array(SECRET)), [room] = crypto.getRandomValues(new Uint32Array(1));
  return { room: BigInt(room), secret };
}
