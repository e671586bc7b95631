// @ts-check
/** The picture of a machine on a canvas. It may be that of a page, or one that a worker has. @module */

export const COLUMNS = 64, ROWS = 32;

/** The bytes of a row. */
const BYTES = COLUMNS / 8;

/** Colors in the bytes of a picture.
 * @typedef {{ dark: number, lit: number }} Colors
 */
/** A canvas that its page has given away, which older checkers of types do not know.
 * @typedef {any} OffscreenCanvas
 */

export class Picture {
  /** @param {HTMLCanvasElement | OffscreenCanvas} canvas of 64 times 32 points */
  constructor(canvas) {
    this.context = /** @type {CanvasRenderingContext2D} */ (canvas.getContext('2d'));
    this.image = this.context.createImageData(COLUMNS, ROWS);
    this.points = new Uint32Array(this.image.data.buffer);
    /** @type {Colors} */
    this.colors = { dark: 0, lit: 0 };
    this.screen = new Uint8Array(COLUMNS * ROWS / 8);
    /** What the canvas shows; null if it has to be painted anew.
     * @type {Uint8Array | null} */
    this.painted = null;
  }

  /** @param {Colors} colors */
  become(colors) {
    this.colors = colors;
    this.painted = null;
    this.paint();
  }

  /** Shows the screen. It paints the rectangle that has changed, so that the browser composes no more than that. */
  paint() {
    const { screen, painted, colors: { dark, lit } } = this;
    let left = BYTES, right = -1, top = ROWS, bottom = -1;
    for (let place = 0; place < screen.length; place++) {
      if (painted?.[place] === screen[place]) continue;
      const row = Math.floor(place / BYTES), column = place % BYTES;
      for (let it = 0; it < 8; it++) this.points[8 * place + it] = screen[place] >> (7 - it) & 1 ? lit : dark;
      left = Math.min(left, column), right = Math.max(right, column);
      top = Math.min(top, row), bottom = row;
    }
    this.painted = screen;
    if (bottom < 0) return;
    this.context.putImageData(this.image, 0, 0, 8 * left, top, 8 * (right - left + 1), bottom - top + 1);
  }
}

/** Tells the colors of the page, `--lit` on `--dark`, each as #rrggbb: now, and whenever they change.
 * @param {(colors: Colors) => void} tell
 */
export function followColors(tell) {
  const look = () => {
    const colors = getComputedStyle(document.documentElement), [dark, lit] = ['--dark', '--lit'].map(it => pointOf(colors.getPropertyValue(it)));
    tell({ dark, lit });
  };
  look();
  matchMedia('(prefers-color-scheme: dark)').addEventListener('change', look);
}

/** A color in the bytes of a picture.
 * @param {string} color
 */
function pointOf(color) {
  const [red, green, blue] = (color.match(/[0-9a-f]{2}/gi) ?? []).map(it => parseInt(it, 16));
  return (0xff000000 | blue << 16 | green << 8 | red) >>> 0;
}
