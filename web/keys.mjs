// @ts-check
/**
 * The keys of a player: the left block of a keyboard by place, arrows, a game pad, and buttons for fingers and mouse. A key set
 * has 16 bits, as the machine's keypad has keys.
 * @module
 */

/** The keypad as it lies on the left block of a keyboard. */
const ROWS = [
  ['Digit1', 'Digit2', 'Digit3', 'Digit4'],
  ['KeyQ', 'KeyW', 'KeyE', 'KeyR'],
  ['KeyA', 'KeyS', 'KeyD', 'KeyF'],
  ['KeyZ', 'KeyX', 'KeyC', 'KeyV'],
];
const PLACES = [[1, 2, 3, 12], [4, 5, 6, 13], [7, 8, 9, 14], [10, 0, 11, 15]];

/** @type {Map<string, number>} */
const BY_CODE = new Map(ROWS.flatMap((row, y) => row.map((code, x) => [code, PLACES[y][x]])));

/** What keys a game uses for which movement.
 * @typedef {Partial<Record<'up' | 'down' | 'left' | 'right' | 'fire', number>>} Roles
 */

/** Where a game says nothing: the middle of the keypad, as in `c8play play`. */
const USUAL = { up: 5, down: 8, left: 7, right: 9, fire: 6 };

/** @type {Map<string, keyof typeof USUAL>} */
const BY_ARROW = new Map([['ArrowUp', 'up'], ['ArrowDown', 'down'], ['ArrowLeft', 'left'], ['ArrowRight', 'right'], ['Space', 'fire']]);
const SIGNS = { up: '▲', down: '▼', left: '◀', right: '▶', fire: '●' };

/** How far a stick has to be pushed, and the buttons of a pad that has the standard mapping. */
const PUSHED = 0.5, FACE = [0, 1, 2, 3], CROSS = /** @type {const} */ ({ up: 12, down: 13, left: 14, right: 15 });

/** The letter or digit that stands on a key of an English keyboard.
 * @param {number} key
 */
export function capOf(key) {
  const y = PLACES.findIndex(row => row.includes(key));
  return ROWS[y][PLACES[y].indexOf(key)].replace(/Digit|Key/, '');
}

/** The keys of a mask, in the order of the keypad.
 * @param {number} mask
 */
export const keysOf = mask => PLACES.flat().filter(key => mask >> key & 1);

/** The keys that somebody holds down. */
export class Keys {
  /**
   * @param {(keys: number) => void} changed
   * @param {Roles[]} roles of each player here; the arrows are those of the first
   */
  constructor(changed, roles) {
    this.changed = changed;
    this.roles = roles.length ? roles : [USUAL];
    /** What holds which key down: a place on the keyboard, a pointer, a pad.
     * @type {Map<string, number>}
     */
    this.held = new Map();
    this.last = 0;
    this.polls = 0;
    this.end = new AbortController();
    this.listen();
  }

  listen() {
    const { signal } = this.end;
    addEventListener('keydown', it => this.strike(it, true), { signal });
    addEventListener('keyup', it => this.strike(it, false), { signal });
    addEventListener('blur', () => this.release(), { signal });
    document.addEventListener('visibilitychange', () => this.release(), { signal });
    addEventListener('gamepadconnected', () => this.poll(), { signal });
    this.poll();
  }

  /** The key that a place on the keyboard stands for.
   * @param {string} code
   */
  keyOf(code) {
    const role = BY_ARROW.get(code);
    return role ? this.roles[0][role] ?? USUAL[role] : BY_CODE.get(code);
  }

  /** @param {KeyboardEvent} event @param {boolean} isDown */
  strike(event, isDown) {
    const key = this.keyOf(event.code);
    if (key === undefined) return;
    if (!isDown) return this.set(event.code, null);
    if (event.ctrlKey || event.metaKey || event.altKey || belongsTo(event)) return;
    event.preventDefault();
    this.set(event.code, key);
  }

  /** @param {string} by @param {number | null} key */
  set(by, key) {
    if (key === null) this.held.delete(by);
    else this.held.set(by, key);
    this.tell();
  }

  release() {
    this.held.clear();
    this.tell();
  }

  tell() {
    let set = 0;
    for (const key of this.held.values()) set |= 1 << key;
    if (set !== this.last) this.changed(this.last = set);
  }

  /** Reads the game pads, in each frame of the screen as long as there are some. The first one is the first player's. */
  poll() {
    cancelAnimationFrame(this.polls);
    const pads = (navigator.getGamepads?.() ?? []).filter(it => it);
    pads.forEach((pad, place) => this.readPad(/** @type {Gamepad} */ (pad), place));
    if (pads.length) this.polls = requestAnimationFrame(() => this.poll());
  }

  /** @param {Gamepad} pad @param {number} place */
  readPad({ buttons, axes }, place) {
    const roles = this.roles[Math.min(place, this.roles.length - 1)], [x = 0, y = 0] = axes;
    const pushed = { up: y < -PUSHED, down: y > PUSHED, left: x < -PUSHED, right: x > PUSHED };
    for (const role of /** @type {(keyof typeof CROSS)[]} */ (Object.keys(CROSS)))
      this.set(`pad ${place} ${role}`, pushed[role] || buttons[CROSS[role]]?.pressed ? roles[role] ?? USUAL[role] : null);
    this.set(`pad ${place} fire`, FACE.some(it => buttons[it]?.pressed) ? roles.fire ?? USUAL.fire : null);
  }

  close() {
    this.end.abort();
    cancelAnimationFrame(this.polls);
    this.release();
  }
}

/** Whether a key is for what has the focus: a field of text, or a button that Space presses.
 * @param {KeyboardEvent} event
 */
function belongsTo({ target, code }) {
  if (!(target instanceof HTMLElement)) return false;
  return /^(INPUT|TEXTAREA|SELECT)$/.test(target.tagName) || (code === 'Space' && /^(BUTTON|A|SUMMARY)$/.test(target.tagName));
}

/** Buttons for the keys of a player: those with a role where the game names some, else all of its mask as they lie on the keypad.
 * @param {Keys} keys
 * @param {number} mask
 * @param {Roles | undefined} roles
 * @param {Record<string, string>} names of roles, where a game has its own
 * @param {string} title whose keys they are, where there are several
 */
export function padOf(keys, mask, roles, names = {}, title = '') {
  const pad = document.createElement('div');
  if (title) pad.append(Object.assign(document.createElement('p'), { textContent: title }));
  const named = /** @type {[keyof Roles, number][]} */ (Object.entries(roles ?? {}));
  pad.className = named.length ? 'pad roles' : 'pad places';
  if (named.length) for (const [role, key] of named) pad.append(button(keys, key, names[role] ?? SIGNS[role], names[role] ?? role, role));
  else for (const key of keysOf(mask)) pad.append(place(button(keys, key, key.toString(16).toUpperCase(), `key ${key.toString(16)}`, ''), key, mask));
  return pad;
}

/** Puts a button where its key lies on the keypad, without the rows and columns that have no key of the mask.
 * @param {HTMLElement} it
 * @param {number} key
 * @param {number} mask
 */
function place(it, key, mask) {
  const isUsed = (/** @type {number[]} */ line) => line.some(other => mask >> other & 1);
  const rows = PLACES.filter(isUsed), columns = PLACES[0].map((_, x) => PLACES.map(row => row[x])).filter(isUsed);
  it.style.gridRow = String(1 + rows.findIndex(row => row.includes(key)));
  it.style.gridColumn = String(1 + columns.findIndex(column => column.includes(key)));
  return it;
}

/**
 * @param {Keys} keys
 * @param {number} key
 * @param {string} sign
 * @param {string} name
 * @param {string} role
 */
function button(keys, key, sign, name, role) {
  const it = document.createElement('button');
  it.type = 'button';
  it.className = `key ${role}`;
  it.textContent = sign;
  it.dataset.key = String(key);
  it.setAttribute('aria-label', name);
  const press = (/** @type {string | number} */ by) => { it.classList.add('held'); keys.set(`${by} on ${key}`, key); };
  const release = (/** @type {string | number} */ by) => { it.classList.remove('held'); keys.set(`${by} on ${key}`, null); };
  it.addEventListener('pointerdown', event => {
    // a finger may slide from one button to the next
    it.releasePointerCapture(event.pointerId);
    press(event.pointerId);
    event.preventDefault();
  });
  it.addEventListener('pointerenter', event => { if (event.buttons) press(event.pointerId); });
  const ends = /** @type {const} */ (['pointerup', 'pointerleave', 'pointercancel']);
  for (const end of ends) it.addEventListener(end, event => release(event.pointerId));
  it.addEventListener('keydown', event => { if (event.code === 'Space' || event.code === 'Enter') press('focus'), event.preventDefault(); });
  for (const end of /** @type {const} */ (['keyup', 'blur'])) it.addEventListener(end, () => release('focus'));
  it.addEventListener('contextmenu', event => event.preventDefault());
  return it;
}
