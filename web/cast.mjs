// @ts-check
/**
 * The files of a cast, which `c8play watch --cast` writes: what the match is, its rows in chunks that never change, and the newer rows in a
 * tail. docs/FORMATS.md has them. Nothing here knows a page.
 * @module
 */
import { rulesOf, bytesOf } from './link.mjs';

/** @typedef {import('./link.mjs').Rules} Rules */

/** The version of the files, the rows of a chunk, the bytes in front of a tail's rows, and of the key set of a player. */
const VERSION = 1, CHUNK = 600, HEAD = 4, SET = 2;

/** How many chunks are loaded at a time. */
const AT_A_TIME = 6;

/** The files cannot be those of one match: loading them again would not help. */
export class Damaged extends Error {}

/** The match of a cast, as far as its files were loaded. */
export class Cast {
  /**
   * @param {string} folder where its files are, with a slash at the end
   * @param {(path: string) => Promise<Uint8Array>} load throws if there is no answer now
   */
  constructor(folder, load) {
    this.folder = folder;
    this.load = load;
    /** The rows from frame 0 on, each with the keys of each player.
     * @type {number[][]} */
    this.rows = [];
    /** How many chunks were loaded. */
    this.chunks = 0;
    /** @type {Rules | null} */
    this.rules = null;
    this.room = '';
    this.begun = 0;
  }

  /** Loads what the match is. */
  async open() {
    const about = JSON.parse(new TextDecoder().decode(await this.load(`${this.folder}match.json`)));
    if (about.version !== VERSION || about.rows !== CHUNK) throw new Damaged(`files of version ${about.version}, and this page reads ${VERSION}`);
    this.rules = rulesOf(bytesOf(about.game));
    this.room = about.room;
    this.begun = about.begun;
  }

  /** Loads the tail, and the chunks that are whole and were not loaded. Returns whether there are new rows. */
  async update() {
    const tail = await this.load(`${this.folder}tail.bin`), { length } = this.rows;
    if (tail.length < HEAD) throw new Damaged('a tail without rows');
    const count = new DataView(tail.buffer, tail.byteOffset).getUint32(0), whole = Math.floor(count / CHUNK);
    // a cache may have an older tail
    if (count <= length) return false;
    while (this.chunks < whole) await this.addChunks(Math.min(whole, this.chunks + AT_A_TIME));
    this.add(whole * CHUNK, this.rowsOf(tail.subarray(HEAD)), count - whole * CHUNK);
    return true;
  }

  /** Loads the chunks below one. Those that came before a failure stay.
   * @param {number} end
   */
  async addChunks(end) {
    const numbers = Array.from({ length: end - this.chunks }, (_, it) => this.chunks + it);
    const loads = numbers.map(it => this.load(`${this.folder}rows/${String(it).padStart(6, '0')}.bin`));
    for (const it of loads) it.catch(() => null);
    for (const it of loads) {
      this.add(this.chunks * CHUNK, this.rowsOf(await it), CHUNK);
      this.chunks++;
    }
  }

  /** @param {Uint8Array} bytes */
  rowsOf(bytes) {
    const { players } = /** @type {Rules} */ (this.rules), size = SET * players, view = new DataView(bytes.buffer, bytes.byteOffset, bytes.length);
    if (bytes.length % size) throw new Damaged('a part of a row');
    return Array.from({ length: bytes.length / size }, (_, row) =>
      Array.from({ length: players }, (_, player) => view.getUint16(row * size + SET * player)));
  }

  /** Adds rows from a frame on. Those that are here have to be the same.
   * @param {number} start
   * @param {number[][]} rows
   * @param {number} count how many they have to be
   */
  add(start, rows, count) {
    if (rows.length !== count || start > this.rows.length) throw new Damaged(`${rows.length} rows at frame ${start} in place of ${count}`);
    rows.forEach((row, it) => {
      const here = this.rows[start + it];
      if (here?.some((keys, player) => keys !== row[player])) throw new Damaged(`frame ${start + it} has changed`);
      this.rows[start + it] = row;
    });
  }
}
