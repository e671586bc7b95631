// @ts-check
/**
 * Where a browser keeps the journal of a match: in the private files of the page's origin; or, for a page that is not secure and has
 * none, in a database of the browser (IndexedDB). Neither lets a frame wait long for the disk. A write counts once it is saved, so packets
 * wait for `saved` before they are sent.
 * @module
 */
import { DISK, LOCKED, Refusal } from './c8.mjs';
import { open, take } from './disk.mjs';

/** @typedef {import('./c8.mjs').JournalFile} JournalFile */
/** @typedef {import('./disk.mjs').Step} Step */
/** @typedef {import('./keeper.mjs').Asked} Asked */
/** @typedef {import('./keeper.mjs').Answer} Answer */

/**
 * A journal's file. `saved` waits until all that was written stands on the disk; it fails if that failed, or if another window has
 * opened the journal since. `content` is for after the match.
 * @typedef {JournalFile & { saved: () => Promise<void>, content: () => Uint8Array }} Journal
 */

/** The bytes of a part of a journal in the database. */
const PART = 4096;

/** A journal that nobody opened for this long is removed. */
const MONTH = 30 * 24 * 3600 * 1000;

const TAKEN = 'Another window has this match open. Close it, or play there.';
const UNREAD = 'The journal of this match cannot be opened. Reload the page to try again, or begin a new match.';

/** Opens a journal; null if this browser can keep none. A journal that was begun in a file and cannot be opened is refused: without it the
 * player would begin again, with inputs that differ from those that the others hold.
 * @param {string} name
 * @returns {Promise<Journal | null>}
 */
export async function openJournal(name) {
  return await openFile(name) ?? await Database.open(name).catch(() => null);
}

// ---- what both have in common

/** The bytes of a journal, which are here and are kept elsewhere. */
class Held {
  /** @param {Uint8Array} bytes */
  constructor(bytes) {
    this.size = bytes.length;
    this.bytes = new Uint8Array(2 * this.size + PART);
    this.bytes.set(bytes);
  }

  /** @param {Uint8Array} bytes @param {{ at: number }} options */
  read(bytes, { at }) {
    const part = this.bytes.subarray(at, Math.min(this.size, at + bytes.length));
    bytes.set(part);
    return part.length;
  }

  /** @param {Uint8Array} bytes @param {{ at: number }} options */
  write(bytes, { at }) {
    const end = at + bytes.length;
    if (end > this.bytes.length) {
      const room = new Uint8Array(2 * end);
      room.set(this.bytes);
      this.bytes = room;
    }
    this.bytes.set(bytes, at);
    this.size = Math.max(this.size, end);
    return bytes.length;
  }

  getSize() {
    return this.size;
  }

  flush() {}

  close() {}

  content() {
    return this.bytes.slice(0, this.size);
  }
}

// ---- files

/** @param {string} name @returns {Promise<Journal | null>} */
async function openFile(name) {
  const folder = await navigator.storage?.getDirectory?.().catch(() => null);
  if (!folder) return null;
  await removeOldFiles(folder);
  const { file, taken } = await open(name).catch(() => ({ file: undefined, taken: false }));
  if (taken) throw new Refusal(LOCKED, TAKEN);
  if (file) return new Kept(name, file);
  if (await isBegun(folder, name)) throw new Refusal(DISK, UNREAD);
  return null;
}

/** Whether a journal's file has bytes. An opening that fails leaves a new one empty.
 * @param {FileSystemDirectoryHandle} folder
 * @param {string} name
 */
async function isBegun(folder, name) {
  try {
    const file = await (await folder.getFileHandle(name)).getFile();
    return file.size > 0;
  } catch {
    return false;
  }
}

/** A save that takes longer than this, in milliseconds, makes a frame late. A keeper gets the file once more than six saves were slow; four that
 * are not make up for a slow one, since any disk is slow now and then, and so is any worker beside busy programs. */
const SHORT = 12, MOST_SLOW = 6, MADE_UP = 1 / 4;

/** The worker that has a journal's file once the disk has shown to be slow. It answers each message, in order. */
class Keeper {
  constructor() {
    /** @type {((answer: Answer) => void)[]} */
    this.asked = [];
    this.failed = '';
    this.worker = new Worker(new URL('keeper.mjs', import.meta.url), { type: 'module' });
    this.worker.onmessage = ({ data }) => this.asked.shift()?.(data);
    this.worker.onerror = ({ message }) => {
      this.failed = message || 'The browser has no modules in workers.';
      for (const it of this.asked.splice(0)) it({ failed: this.failed });
    };
  }

  /** @param {Asked} message @returns {Promise<Answer>} */
  async ask(message) {
    if (this.failed) return { failed: this.failed };
    const bytes = message.steps?.map(it => it.bytes.buffer) ?? [];
    return new Promise(done => { this.asked.push(done); this.worker.postMessage(message, bytes); });
  }
}

/**
 * A journal in a file. A session appends a record by two writes, each with a wait after it: the body with the closed gate behind it, and then
 * the open gate in front of it (docs/FORMATS.md, Journal slots). Here both are one step. Records that are appended one after another before
 * they are saved are one step too: the first gate is opened last, so a crash keeps either all of them or none, and the disk is waited for
 * twice. Where that is fast, it is waited for here, since a keeper's messages take more of a processor than the waiting.
 * @implements {Journal}
 */
class Kept extends Held {
  /** @param {string} name @param {JournalFile} file */
  constructor(name, file) {
    const bytes = new Uint8Array(file.getSize());
    file.read(bytes, { at: 0 });
    super(bytes);
    this.name = name;
    this.file = file;
    /** @type {Keeper | null} */
    this.keeper = null;
    /** How many saves were slow. */
    this.slow = 0;
    /** Where the last body ended.
     * @type {number} */
    this.end = 0;
    /** @type {Step[]} */
    this.steps = [];
  }

  /** @param {Uint8Array} bytes @param {{ at: number }} options */
  write(bytes, { at }) {
    super.write(bytes, { at });
    if (bytes.length === 1) this.addGate(at);
    else this.end = at + bytes.length;
    return bytes.length;
  }

  /** @param {number} at where a gate was opened, or closed by an opening */
  addGate(at) {
    const last = this.steps.at(-1), end = Math.max(at + 1, this.end);
    const isNext = last && last.bytes.length > 1 && last.at + last.bytes.length - 1 === at;
    if (isNext) last.bytes = this.bytes.slice(last.at, end);
    else this.steps.push({ at, bytes: this.bytes.slice(at, end) });
  }

  close() {
    if (this.keeper) return void this.keeper.ask({ steps: this.steps.splice(0), closes: true });
    try {
      this.take();
    } finally {
      this.file.close();
    }
  }

  async saved() {
    if (!this.steps.length) return;
    if (!this.keeper) return this.save();
    const { failed } = await this.keeper.ask({ steps: this.steps.splice(0) });
    if (failed) throw new Error(failed);
  }

  /** Saves the steps here. */
  save() {
    const begun = performance.now();
    this.take();
    const isSlow = performance.now() - begun > SHORT;
    this.slow = Math.max(0, this.slow + (isSlow ? 1 : -MADE_UP));
    if (this.slow > MOST_SLOW && globalThis.Worker) this.giveAway();
  }

  /** A step that fails stays, so that no later one is taken before it. */
  take() {
    for (; this.steps.length; this.steps.shift()) take(this.file, this.steps[0]);
  }

  /** Gives the file to a keeper. If that cannot open it, the next save fails. */
  giveAway() {
    const size = this.file.getSize();
    this.file.close();
    this.keeper = new Keeper();
    this.keeper.ask({ name: this.name, size });
  }
}

/** @param {FileSystemDirectoryHandle} folder */
async function removeOldFiles(folder) {
  for await (const entry of /** @type {any} */ (folder).values()) {
    const isOld = entry.name.endsWith('.journal') && Date.now() - (await entry.getFile()).lastModified > MONTH;
    if (isOld) await folder.removeEntry(entry.name).catch(() => {});
  }
}

// ---- the database: parts of journals, and for each journal who opened it last

const PARTS = 'parts', OWNERS = 'owners';

/** What a request or a transaction comes to.
 * @param {any} asked
 * @returns {Promise<any>}
 */
const done = asked => new Promise((resolve, reject) => {
  asked.onsuccess = asked.oncomplete = () => resolve(asked.result);
  asked.onerror = asked.onabort = () => reject(asked.error ?? new Error(TAKEN));
});

/** All parts of a journal.
 * @param {string} name
 */
const partsOf = name => IDBKeyRange.bound([name, 0], [name, Infinity]);

/** @param {Uint8Array[]} parts each of PART bytes, but for the last */
function joined(parts) {
  const bytes = new Uint8Array(parts.reduce((sum, it) => sum + it.length, 0));
  parts.forEach((it, place) => bytes.set(it, place * PART));
  return bytes;
}

/** @implements {Journal} */
class Database extends Held {
  /**
   * @param {IDBDatabase} base
   * @param {string} name
   * @param {Uint8Array[]} parts
   */
  constructor(base, name, parts) {
    super(joined(parts));
    this.base = base;
    this.name = name;
    this.token = crypto.getRandomValues(new Uint32Array(4)).join();
    /** Parts that were written and not saved.
     * @type {Set<number>} */
    this.changed = new Set();
  }

  /** @param {string} name */
  static async open(name) {
    const asked = indexedDB.open('c8play', 1);
    asked.onupgradeneeded = () => { for (const it of [PARTS, OWNERS]) asked.result.createObjectStore(it); };
    /** @type {IDBDatabase} */
    const base = await done(asked), work = base.transaction([PARTS, OWNERS], 'readwrite');
    Database.removeOld(work);
    const journal = new Database(base, name, await done(work.objectStore(PARTS).getAll(partsOf(name))));
    // from now on nothing is saved by whoever had it open
    work.objectStore(OWNERS).put({ token: journal.token, at: Date.now() }, name);
    await done(work);
    return journal;
  }

  /** @param {IDBTransaction} work */
  static removeOld(work) {
    const asked = work.objectStore(OWNERS).openCursor();
    asked.onsuccess = () => {
      const entry = asked.result;
      if (entry && Date.now() - entry.value.at > MONTH) entry.delete(), work.objectStore(PARTS).delete(partsOf(String(entry.key)));
      entry?.continue();
    };
  }

  /** @param {Uint8Array} bytes @param {{ at: number }} options */
  write(bytes, { at }) {
    for (let part = Math.floor(at / PART); part * PART < at + bytes.length; part++) this.changed.add(part);
    return super.write(bytes, { at });
  }

  async saved() {
    if (!this.changed.size) return;
    const parts = [...this.changed].map(part => ({ part, bytes: this.bytes.slice(part * PART, Math.min(this.size, (part + 1) * PART)) }));
    this.changed.clear();
    const work = this.base.transaction([PARTS, OWNERS], 'readwrite', /** @type {any} */ ({ durability: 'strict' }));
    const owner = work.objectStore(OWNERS).get(this.name);
    owner.onsuccess = () => {
      if (owner.result?.token !== this.token) return work.abort();
      for (const { part, bytes } of parts) work.objectStore(PARTS).put(bytes, [this.name, part]);
    };
    await done(work);
  }
}
