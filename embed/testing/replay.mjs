// replay.mjs MODULE: a journal in a file of JavaScript, and replays of it, over the module of a page; in node, or in a page by `replay`. Prints
// `replay: fine`.
import { load, Refusal, REPLAY } from './c8.mjs';

/** A file in memory, as `FileSystemSyncAccessHandle` has it. */
class Kept {
  constructor() {
    this.bytes = new Uint8Array(0);
    this.open = 0;
  }

  /** Opens it once more. */
  file() {
    this.open++;
    return {
      getSize: () => this.bytes.length,
      read: (to, { at }) => {
        const part = this.bytes.subarray(at, at + to.length);
        to.set(part);
        return part.length;
      },
      write: (from, { at }) => {
        const grown = new Uint8Array(Math.max(this.bytes.length, at + from.length));
        grown.set(this.bytes), grown.set(from, at);
        this.bytes = grown;
        return from.length;
      },
      flush: () => {},
      close: () => this.open--,
    };
  }
}

function must(what, came, wanted) {
  if (JSON.stringify(came) !== JSON.stringify(wanted)) throw new Error(`${what}: ${JSON.stringify(came)} in place of ${JSON.stringify(wanted)}`);
}

function refusal(call) {
  try {
    call();
  } catch (error) {
    if (error instanceof Refusal) return error.number;
    throw error;
  }
  return 0;
}

const inputs = session => [...session.step().rows].filter((_, it) => it % 4 === 0);

export async function replay(module) {
  const c8 = await load(module), id = new Uint8Array(32), text = c8.rules(2, 100, 1, 8, id), kept = new Kept();
  const blocks = c8.exports.page_blocks(), one = c8.openJournal(text, 1, 7n, 0, kept.file());
  for (const it of [3, 4, 5]) must('a tick', one.tick(it), 0);
  const before = kept.bytes, back = c8.openReplay(text, kept.file());
  must('rows', [back.ticked(), inputs(back)], [3, [0, 3, 4]]);
  must('what plays', [back.tick(1), back.turn(), back.next()], [REPLAY, REPLAY, null]);
  must('the file', [...kept.bytes], [...before]);
  must('a tick', one.tick(6), 0);
  back.close(), one.close();
  id[0] = 1;
  must('another game', refusal(() => c8.openReplay(c8.rules(2, 100, 1, 8, id), kept.file())), 301);
  kept.bytes = new Uint8Array(0);
  must('no journal', refusal(() => c8.openReplay(text, kept.file())), 303);
  must('open files and blocks', [kept.open, String(c8.exports.page_blocks())], [0, String(blocks)]);
  return 'replay: fine\n';
}

if (globalThis.process?.argv?.[1]?.endsWith('replay.mjs')) {
  const { readFileSync } = await import('node:fs');
  process.stdout.write(await replay(readFileSync(process.argv[2])));
}
