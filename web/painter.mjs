// @ts-check
/** Where the page shows the picture of a match, and how large. @module */
import { COLUMNS, Picture, ROWS, followColors } from './picture.mjs';

/** @typedef {import('./picture.mjs').Colors} Colors */

/** @template {HTMLElement} T @param {string} id @returns {T} */
const part = id => /** @type {T} */ (document.getElementById(id));

/** The part of the window's height that the picture has at most. A phone on its side has room for the keys as its style says. */
const HIGHEST = 0.7, HIGHEST_FULL = 0.88, ON_ITS_SIDE = '(pointer: coarse) and (orientation: landscape)';

/** The place of a match's picture, each point as large as whole points of the screen allow. A worker paints it, so that a frame costs the page
 * nothing; where the browser cannot give a canvas away, it is painted here. */
export class Painter {
  /** @param {(colors: Colors) => void} tell the worker */
  constructor(tell) {
    this.tell = tell;
    this.last = new Picture(part('last'));
    /** @type {Picture | null} */
    this.picture = null;
    this.due = 0;
    this.screen = this.last.screen;
    this.fit();
    addEventListener('resize', () => this.fit());
    document.addEventListener('fullscreenchange', () => this.fit());
    followColors(it => this.become(it));
  }

  /** @param {Colors} colors */
  become(colors) {
    this.last.become(colors);
    this.picture?.become(colors);
    this.tell(colors);
  }

  /** Takes a new canvas for a match. Returns it for the worker, or null if it is painted here. */
  begin() {
    const old = part('picture'), canvas = /** @type {HTMLCanvasElement} */ (old.cloneNode());
    old.replaceWith(canvas);
    /** @type {import('./picture.mjs').OffscreenCanvas | null} */
    const given = /** @type {any} */ (canvas).transferControlToOffscreen?.() ?? null;
    this.picture = given ? null : new Picture(canvas);
    this.picture?.become(this.last.colors);
    this.fit();
    return given;
  }

  /** Shows a screen with the next frame of the browser's.
   * @param {Uint8Array} screen
   */
  show(screen) {
    this.screen = screen;
    if (!this.picture) return;
    this.picture.screen = screen;
    this.due ||= requestAnimationFrame(() => { this.due = 0; this.picture?.paint(); });
  }

  /** Shows the last screen of a match, at its end. */
  end() {
    this.last.screen = this.screen;
    this.last.paint();
  }

  fit() {
    const { width, height } = roomOf(part('match')), scale = devicePixelRatio || 1, { style } = part('picture');
    const point = Math.max(1, Math.floor(Math.min(width / COLUMNS, height / ROWS) * scale)) / scale;
    style.width = `${COLUMNS * point}px`;
    style.height = `${ROWS * point}px`;
    part('match').style.setProperty('--width', `${COLUMNS * point}px`);
  }
}

/** How large the picture may be.
 * @param {HTMLElement} around
 */
function roomOf(around) {
  const style = getComputedStyle(around), points = (/** @type {string} */ name) => parseFloat(style.getPropertyValue(name)) || 0;
  const width = around.clientWidth - points('padding-left') - points('padding-right');
  if (matchMedia(ON_ITS_SIDE).matches) return { width: width - 2 * points('--beside'), height: innerHeight - points('--below') };
  return { width, height: innerHeight * (document.fullscreenElement ? HIGHEST_FULL : HIGHEST) };
}
