// @ts-check
/**
 * The page: it offers games, shows a match that a worker plays, and gives it the keys.
 * @module
 */
import { Keys, capOf, keysOf, padOf } from './keys.mjs';
import { PLAYERS, WATCHERS, drawMatch, gameId, hex, readLink, spellShort, watchersSecret } from './link.mjs';
import { Painter } from './painter.mjs';
import { COLUMNS, ROWS } from './picture.mjs';
import { LONG, clockOf, endOf, hereOf, numbersOf, stateOf, watchOf } from './words.mjs';

/** @typedef {import('./link.mjs').Link} Link */
/** @typedef {import('./link.mjs').Rules} Rules */
/** @typedef {import('./match.mjs').Row} Row */

/**
 * A game that the server offers, as games.json has it.
 * @typedef {object} Offer
 * @property {string} name
 * @property {string} title
 * @property {string} about
 * @property {number} players
 * @property {string} id
 * @property {import('./keys.mjs').Roles[]} [keys] of each player
 * @property {Record<string, string>} [words] for its roles
 */

const SECOND = 1000, ARROWS = { up: '↑', down: '↓', left: '←', right: '→', fire: 'Space' };

const MINUTE = 60000, LEFT = 'You left the match.', COUNTS = ['', '', 'Two', 'Three', 'Four'];

/** @template {HTMLElement} T @param {string} id @returns {T} */
const part = id => /** @type {T} */ (document.getElementById(id));

/** @template {keyof HTMLElementTagNameMap} T @param {T} name @param {Partial<HTMLElementTagNameMap[T]>} more @param {(Node | string)[]} inside */
function make(name, more = {}, ...inside) {
  const it = Object.assign(document.createElement(name), more);
  it.append(...inside);
  return it;
}

/** Shows one of the three views.
 * @param {'home' | 'match' | 'end'} name
 */
function view(name) {
  for (const it of ['home', 'match', 'end']) part(it).hidden = it !== name;
}

/** What the browser keeps for this page, if it keeps anything.
 * @param {string} key
 */
function recall(key) {
  try {
    return localStorage.getItem(key);
  } catch {
    return null;
  }
}

/** @param {string} key @param {string} value */
function remember(key, value) {
  try {
    localStorage.setItem(key, value);
  } catch {
    // then it forgets
  }
}

/** Tells a screen reader.
 * @param {string} text
 */
const speak = text => { part('spoken').textContent = text; };

/** @param {string} path */
const relayOf = path => new URL(path, location.href.replace(/^http/, 'ws')).href;

/** The link of a seat in a match of a game that the server offers.
 * @param {Link} link
 * @param {number} seat
 * @param {string} game
 */
const linkTo = (link, seat, game) => `${location.origin}${location.pathname}#${spellShort({ ...link, seat, game })}`;

// ---- the list of games

/** @type {Offer[]} */
let offers = [];

async function loadOffers() {
  const got = await fetch('games.json').catch(() => null);
  offers = got?.ok ? await got.json().catch(() => []) : [];
}

function showHome() {
  view('home');
  part('games').replaceChildren(...offers.map(cardOf));
  part('none').hidden = offers.length > 0;
}

/** @param {Offer} offer */
function cardOf(offer) {
  const here = make('button', { type: 'button', textContent: 'Play here', onclick: () => start(offer, 0) });
  const invite = make('button', { type: 'button', className: 'main', onclick: () => start(offer, 1) });
  invite.textContent = offer.players > 2 ? 'Invite friends' : 'Invite a friend';
  here.title = 'Alone, or all at this keyboard';
  const count = COUNTS[offer.players] ? ` ${COUNTS[offer.players]} players.` : '';
  return make('li', {}, make('h2', {}, offer.title), make('p', {}, `${offer.about}${count}`), make('div', { className: 'choices' }, invite, here));
}

/** Begins a match of a game that the server offers: all players here (0), or as player 1, with a link for the others.
 * @param {Offer} offer
 * @param {number} seat
 */
async function start(offer, seat) {
  const link = { ...drawMatch(), seat, text: null, game: offer.name };
  if (seat) history.pushState(null, '', linkTo(link, seat, offer.name));
  await play(link);
}

// ---- a match

/** @type {Shown | undefined} */
let shown;

/** @param {Link} link */
async function play(link) {
  view('match');
  const text = link.text ?? await textOf(/** @type {string} */ (link.game));
  if (!text) return fail('This link is for a game that this server does not have.', `Ask for the game ${link.game}, or for another link.`);
  shown = new Shown(link, text);
}

/** @param {string} game */
async function textOf(game) {
  const got = await fetch(`${game}.game`).catch(() => null);
  return got?.ok ? new Uint8Array(await got.arrayBuffer()) : null;
}

/** A match that the page shows. */
class Shown {
  /**
   * @param {Link} link
   * @param {Uint8Array} text
   */
  constructor(link, text) {
    this.link = link;
    this.text = text;
    /** @type {Row | null} */
    this.row = null;
    /** @type {Rules | null} */
    this.rules = null;
    /** @type {Offer | undefined} */
    this.offer = undefined;
    this.kept = true;
    this.state = '';
    this.isInviting = false;
    this.told = -1;
    this.asks = 0;
    this.offered = '';
    this.tone = new Tone();
    this.painter = painter;
    painter.screen = new Uint8Array(COLUMNS * ROWS / 8);
    part('state').textContent = 'Loading …';
    part('numbers').textContent = '';
    this.worker = new Worker('worker.mjs', { type: 'module' });
    this.worker.onmessage = ({ data }) => this.hear(data);
    this.worker.onerror = ({ message }) => message ? this.end('The program failed.', message)
      : this.end('The page does not work in this browser.', 'It needs modules in workers: a browser of the year 2023 or later.');
    const { seat: player, room, secret } = link;
    const canvas = painter.begin(), { colors } = painter.last;
    const asked = { is: 'begin', text, player, room, secret, relay: relayOf('relay'), begun: this.wasBegun(), canvas, colors };
    this.worker.postMessage(asked, canvas ? [canvas] : []);
  }

  /** Whether somebody plays here, and the others elsewhere. */
  get isPlayer() {
    return PLAYERS.includes(this.link.seat);
  }

  get isWatcher() {
    return WATCHERS.includes(this.link.seat);
  }

  /** Whether this match was begun here before. Then it does not begin again without a journal. */
  wasBegun() {
    const { seat, room } = this.link;
    return this.isPlayer && recall(`begun ${room} ${seat}`) !== null;
  }

  /** @param {import('./worker.mjs').FromWorker} message */
  hear(message) {
    switch (message.is) {
      case 'open': return this.open(message.rules, message.kept);
      case 'frame': return this.show(message);
      case 'over': return this.over(message);
      case 'refused': return this.end('This match cannot begin.', message.sentence);
      case 'journal': return this.save(message.bytes);
      case 'left': return this.left(message.screen);
    }
  }

  /** @param {Uint8Array | null} screen */
  left(screen) {
    this.keep(screen);
    this.end(LEFT, this.isPlayer && this.kept ? 'It waits for you: go on, or open the same link again.' : '');
  }

  /** @param {Uint8Array | null} screen the last one, which the worker has painted */
  keep(screen) {
    if (screen?.length) this.painter.screen = screen;
  }

  /** @param {Rules} rules @param {boolean} kept */
  open(rules, kept) {
    const { seat, room } = this.link, id = hex(gameId(rules)), offer = offers.find(it => it.id === id);
    this.offer = offer;
    this.kept = kept;
    this.rules = rules;
    if (this.isPlayer) remember(`begun ${room} ${seat}`, '');
    part('title').textContent = document.title = offer?.title ?? 'A game';
    const alone = this.isWatcher ? 'You are watching.' : 'All players are here.';
    part('who').textContent = this.isPlayer ? `You are player ${seat} of ${rules.players}.` : alone;
    part('warning').hidden = kept;
    part('warning').textContent = 'This browser keeps no files for this page: if you leave or reload it, you cannot come back to this match.';
    if (!this.isWatcher) this.giveKeys(rules, offer);
    part('picture').focus({ preventScroll: true });
    if (seat === 1 && offer) this.invite(rules, offer);
  }

  /** @param {Rules} rules @param {Offer | undefined} offer */
  giveKeys({ masks }, offer) {
    const { seat } = this.link, players = seat ? [seat] : masks.map((_, place) => place + 1);
    const roles = players.flatMap(it => offer?.keys?.[it - 1] ?? []);
    this.keys = new Keys(keys => this.worker.postMessage({ is: 'keys', keys }), roles);
    const { keys } = this;
    const areSeveral = players.length > 1, titleOf = (/** @type {number} */ it) => areSeveral ? `Player ${it}` : '';
    part('pads').replaceChildren(...players.map(it => padOf(keys, masks[it - 1], offer?.keys?.[it - 1], offer?.words, titleOf(it))));
    part('pads').classList.toggle('several', areSeveral);
    this.painter.fit();
    part('help').replaceChildren(...players.flatMap((it, place) => helpOf(it, masks[it - 1], offer, areSeveral, place === 0)));
  }

  /** @param {Rules} rules @param {Offer} offer */
  invite({ players }, offer) {
    const seats = PLAYERS.filter(it => it > 1 && it <= players);
    part('inviting').textContent = seats.length > 1 ? 'Invite your friends' : 'Invite a friend';
    if (seats.length > 1) part('how').textContent = 'Send each friend one of these links, and keep them from others.';
    part('links').replaceChildren(...seats.map(it => linkField(seats.length > 1 ? `Player ${it}` : 'The link', linkTo(this.link, it, offer.name))));
    const watched = { ...this.link, secret: watchersSecret(this.link.secret) };
    part('watching').replaceChildren(...WATCHERS.map((it, place) => linkField(`Watcher ${place + 1}`, linkTo(watched, it, offer.name))));
    this.inviting(true);
  }

  /** Shows the links in the place of the picture, or the picture.
   * @param {boolean} isInviting
   */
  inviting(isInviting) {
    this.isInviting = isInviting;
    part('invite').hidden = !isInviting;
    part('match').classList.toggle('inviting', isInviting);
    this.painter.fit();
    const first = isInviting ? document.querySelector('#links button') : part('picture');
    /** @type {HTMLElement} */ (first).focus({ preventScroll: true });
  }

  /** Whether all others have been here: in this visit, or the match has begun before.
   * @param {Row} row
   */
  hasBegun({ others, confirmed }) {
    return others.every(it => it.met) || confirmed > (this.rules?.delay ?? 0);
  }

  /** @param {{ screen: Uint8Array | null, sounds: boolean, row: Row, relay: import('./relay.mjs').Standing }} frame */
  show({ screen, sounds, row, relay }) {
    if (screen) this.painter.show(screen);
    this.row = row;
    this.tone.sound(sounds);
    if (this.isInviting && this.hasBegun(row)) this.inviting(false);
    const state = this.isPlayer ? stateOf(row, relay) : this.isWatcher ? watchOf(row, relay) : hereOf(row);
    if (state !== this.state) part('state').textContent = this.state = state, this.say(state);
    const second = Math.floor(performance.now() / SECOND);
    if (second !== this.told) part('numbers').textContent = this.isPlayer ? numbersOf(row) : clockOf(row), this.told = second;
    this.offerDrop(row);
  }

  /** Speaks a state, but not each second of a silence.
   * @param {string} state
   */
  say(state) {
    const text = state.replace(/, silent for \d+ seconds/, ', who is silent');
    if (part('spoken').textContent !== text) speak(text);
  }

  /** Lets player 1 drop a player who is silent, with a second press to be sure.
   * @param {Row} row
   */
  offerDrop({ player, waits, others }) {
    const silent = others.find(it => it.number === waits)?.silent ?? 0, may = player === 1 && silent >= LONG && others.some(it => it.met);
    if (!may) this.asks = 0;
    const offered = !may ? '' : this.asks === waits ? `Drop player ${waits} for good?` : `Drop player ${waits}`;
    if (offered === this.offered) return;
    part('drop').textContent = this.offered = offered;
    part('drop').hidden = !offered;
  }

  drop() {
    const waits = this.row?.waits ?? 0;
    if (this.asks === waits && waits) this.worker.postMessage({ is: 'drop', player: waits }), this.asks = 0;
    else this.asks = waits;
  }

  leave() {
    if (this.kept || !this.row) this.worker.postMessage({ is: 'leave' });
    else /** @type {HTMLDialogElement} */ (part('sure')).showModal();
  }

  /** @param {import('./worker.mjs').Over} over */
  over(over) {
    this.keep(over.screen);
    const [title, then] = endOf(over, this.isPlayer), isWhole = !over.dropped && !over.failed;
    this.end(title, then, isWhole ? over.report : null);
    part('again').hidden = !isWhole || !this.offer || this.link.seat > 1;
  }

  /** Begins the same game again. */
  again() {
    this.worker.terminate();
    if (this.offer) start(this.offer, this.link.seat);
  }

  /** Shows the end of a match.
   * @param {string} title
   * @param {string} then
   * @param {string | null} report
   */
  end(title, then = '', report = null) {
    this.keys?.close();
    this.tone.sound(false);
    if (document.fullscreenElement) document.exitFullscreen();
    fail(title, then);
    this.painter.end();
    part('back').hidden = !this.link.seat || !this.kept || title !== LEFT;
    part('last').hidden = !this.row;
    part('result').hidden = report === null;
    part('report').textContent = report ?? '';
    part('save').hidden = !this.isPlayer || !this.kept;
    if (report === null) this.worker.terminate();
  }

  /** @param {Uint8Array | null} bytes of the journal */
  save(bytes) {
    if (!bytes) return;
    const { room, seat, game } = this.link, url = URL.createObjectURL(new Blob([bytes]));
    make('a', { href: url, download: `${game ?? 'match'}.${room}.${seat}.journal` }).click();
    setTimeout(() => URL.revokeObjectURL(url), MINUTE);
  }
}

/** The keys of a player, in words.
 * @param {number} player
 * @param {number} mask
 * @param {Offer | undefined} offer
 * @param {boolean} isOneOfSeveral
 * @param {boolean} hasArrows
 * @returns {(Node | string)[]}
 */
function helpOf(player, mask, offer, isOneOfSeveral, hasArrows) {
  const roles = Object.entries(offer?.keys?.[player - 1] ?? {}), who = isOneOfSeveral ? `Player ${player}: ` : 'Your keys: ';
  const named = roles.map(([role, key]) => [capOf(key), offer?.words?.[role] ?? role]);
  const words = named.length ? named : keysOf(mask).map(key => [capOf(key), `key ${key.toString(16).toUpperCase()}`]);
  const arrows = hasArrows ? roles.map(([role]) => ARROWS[/** @type {keyof typeof ARROWS} */ (role)]).join(' ') : '';
  if (!words.length) return [];
  const keys = words.flatMap(([cap, word], place) => [place ? ', ' : '', make('kbd', { textContent: cap }), ` ${word}`]);
  return [make('span', {}, who, ...keys, arrows && `; or ${arrows}`), make('br')];
}

/** A field that shows a link, with a button that copies it.
 * @param {string} name
 * @param {string} link
 */
function linkField(name, link) {
  const id = `link-${name.replaceAll(' ', '-')}`, field = make('input', { id, value: link, readOnly: true });
  const copy = make('button', { type: 'button', className: 'main' }, 'Copy');
  field.onfocus = () => field.select();
  copy.onclick = () => copyFrom(field, copy);
  return make('div', { className: 'link' }, make('label', { htmlFor: id, textContent: name }), field, copy);
}

/** @param {HTMLInputElement} field @param {HTMLButtonElement} button */
async function copyFrom(field, button) {
  field.select();
  // a page that is not from https has no clipboard
  const copied = navigator.clipboard?.writeText(field.value).then(() => true, () => false);
  const isCopied = copied ? await copied : document.execCommand('copy');
  button.textContent = isCopied ? 'Copied' : 'Copy it by hand';
  speak(isCopied ? 'The link is copied.' : 'The link is selected: copy it by hand.');
}

const painter = new Painter(colors => shown?.worker.postMessage({ is: 'colors', colors }));

/** The tone of the machine, once a person has asked for sound. */
class Tone {
  sound(isOn = false) {
    const wanted = isOn && Tone.isWanted();
    if (wanted === this.isOn) return;
    this.isOn = wanted;
    if (Tone.gain) Tone.gain.gain.setTargetAtTime(wanted ? Tone.LOUD : 0, /** @type {AudioContext} */ (Tone.context).currentTime, Tone.EDGE);
  }

  isOn = false;

  static LOUD = 0.04;
  static EDGE = 0.004;
  static HERTZ = 440;
  /** @type {AudioContext | undefined} */ static context;
  /** @type {GainNode | undefined} */ static gain;

  static isWanted() {
    return recall('sound') === 'on';
  }

  /** A browser lets a page sound only after a click or a key. */
  static wake() {
    if (!Tone.isWanted()) return;
    if (!Tone.context) {
      Tone.context = new AudioContext();
      Tone.gain = new GainNode(Tone.context, { gain: 0 });
      const source = new OscillatorNode(Tone.context, { type: 'square', frequency: Tone.HERTZ });
      source.connect(Tone.gain).connect(Tone.context.destination);
      source.start();
    }
    Tone.context.resume();
  }
}

// ---- the parts of the page

/** Shows what went wrong, or how a match ended.
 * @param {string} title
 * @param {string} then
 */
function fail(title, then) {
  view('end');
  part('ended').textContent = title;
  part('then').textContent = then;
  for (const it of ['back', 'again', 'last', 'result']) part(it).hidden = true;
  part('back').hidden = part('result').hidden = true;
  part('ended').focus();
  speak(`${title} ${then}`);
}

function showSound() {
  part('sound').setAttribute('aria-pressed', String(Tone.isWanted()));
  part('sound').textContent = Tone.isWanted() ? 'Sound on' : 'Sound off';
}

function connect() {
  part('sound').onclick = () => { remember('sound', Tone.isWanted() ? 'off' : 'on'); Tone.wake(); showSound(); };
  part('full').hidden = !document.fullscreenEnabled;
  part('full').onclick = () => part('match').requestFullscreen();
  part('leave').onclick = () => shown?.leave();
  part('drop').onclick = () => shown?.drop();
  part('back').onclick = () => location.reload();
  part('again').onclick = () => shown?.again();
  part('save').onclick = () => shown?.worker.postMessage({ is: 'journal' });
  const sure = /** @type {HTMLDialogElement} */ (part('sure'));
  part('stay').onclick = () => sure.close();
  part('go').onclick = () => { sure.close(); shown?.worker.postMessage({ is: 'leave' }); };
  // after a click the keys are the game's again
  const play = (/** @type {MouseEvent} */ event) => { if (event.detail) part('picture').focus({ preventScroll: true }); };
  for (const it of ['sound', 'full', 'drop']) part(it).addEventListener('click', play);
  for (const it of ['pointerdown', 'keydown']) addEventListener(it, Tone.wake);
  addEventListener('hashchange', () => location.reload());
  addEventListener('popstate', () => location.reload());
  addEventListener('beforeunload', event => { if (shown?.row && !shown.kept && part('end').hidden) event.preventDefault(); });
  showSound();
}

async function begin() {
  connect();
  await loadOffers();
  if (typeof WebAssembly === 'undefined') return fail('This browser has no WebAssembly.', 'The game needs it. Try another browser, or turn it on.');
  const said = location.hash.slice(1), link = readLink(said);
  if (!said) return showHome();
  if (!link) return fail('This link is damaged.', 'A part is missing, or a letter has changed. Ask for it again, and open all of it.');
  await play(link);
}

begin();
