// @ts-check
/** The file of a journal on the disk. Each call of it waits until it is done, so only workers have such files. @module */

/** @typedef {import('./c8.mjs').JournalFile} JournalFile */

/**
 * What is to stand at a place of the file. The first byte is written last, after all others stand on the disk; then it is waited for, too.
 * @typedef {{ at: number, bytes: Uint8Array }} Step
 */
/** The file of a name; `taken` if another page has it open; nothing if the browser has no such files.
 * @typedef {{ file?: JournalFile, taken?: boolean }} Opened
 */

/** How long a file is waited for that another page has open, as the page that was reloaded has for a moment. */
const RELEASE = 3000, PAUSE = 100;

/** Opens the file of a name, and makes it if it is missing. Throws what the browser does, but for a file that is taken.
 * @param {string} name
 * @returns {Promise<Opened>}
 */
export async function open(name) {
  const folder = await navigator.storage.getDirectory();
  /** @type {any} */
  const entry = await folder.getFileHandle(name, { create: true });
  if (!entry.createSyncAccessHandle) return {};
  for (const end = performance.now() + RELEASE; performance.now() <= end; await new Promise(done => setTimeout(done, PAUSE))) {
    try {
      return { file: await entry.createSyncAccessHandle() };
    } catch (error) {
      if (/** @type {Error} */ (error).name !== 'NoModificationAllowedError') throw error;
    }
  }
  return { taken: true };
}

/** Writes a step, and waits until it stands on the disk.
 * @param {JournalFile} file
 * @param {Step} step
 */
export function take(file, { at, bytes }) {
  if (bytes.length > 1) put(file, bytes.subarray(1), at + 1);
  put(file, bytes.subarray(0, 1), at);
}

/**
 * @param {JournalFile} file
 * @param {Uint8Array} bytes
 * @param {number} at
 */
function put(file, bytes, at) {
  if (file.write(bytes, { at }) !== bytes.length) throw new Error('The disk is full.');
  file.flush();
}
