// @ts-check
/** A worker that writes the file of one journal where the disk is slow. It waits for the disk, so that no frame does. @module */
import { open, take } from './disk.mjs';

/** @typedef {import('./disk.mjs').Step} Step */

/** First of all the name of the file, and the bytes that it has to have; then steps, and whether the file is closed after them.
 * @typedef {{ name?: string, size?: number, steps?: Step[], closes?: boolean }} Asked
 */
/** Why something failed. After a failure all later steps fail.
 * @typedef {{ failed: string }} Answer
 */

/** @type {import('./c8.mjs').JournalFile | undefined} */
let file;
let failed = '';

/** @param {string} name @param {number} size */
async function begin(name, size) {
  ({ file } = await open(name));
  // another page may have had it open in the meantime
  if (file?.getSize() !== size) throw new Error('Another window has opened this match.');
}

/** @param {Asked} asked @returns {Promise<Answer>} */
async function answer({ name, size = 0, steps = [], closes }) {
  try {
    if (name) await begin(name, size);
    if (file && !failed) for (const it of steps) take(file, it);
  } catch (error) {
    failed = /** @type {Error} */ (error).message;
  }
  if (closes) file?.close();
  return { failed };
}

/** Messages are answered in their order, also while the file is being opened. */
let work = Promise.resolve();
onmessage = (/** @type {MessageEvent<Asked>} */ { data }) => { work = work.then(async () => postMessage(await answer(data))); };
