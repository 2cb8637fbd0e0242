// The tab of the atlas: its controls, what is told beside it and below it, and its session as lines.
import { copy, count, download, find, make, numberOf, say, time, trouble } from './page.js';
import { Beside } from './beside.js';
import { wireHistory, writeHistory } from './history.js';
import { Player } from './player.js';
import { Pointing } from './pointing.js';
import { fragmentOf, textOf } from './link.js';
import { classOf } from './session.js';
import { Tree } from './tree.js';
import { sides } from './why.js';
import { sizesOf, svgOf } from './sizes.js';

const CLASSES = ['small', 'medium', 'large'];
const LISTED = 40;
const PAUSE = 250; // milliseconds between two writings of the lists, while the atlas runs
const LONG = 5000; // lines: a longer session is written out once it stands still
// What a person sees first.
const FIRST = ['atlas 512 256', ...['96 120', '64 64', '80 40', '64 64', '48 90', '120 56', '30 30', '30 44', '64 64', '100 80',
  '24 24', '40 110', '72 36', '64 64', '18 20', '90 60'].map((size) => `alloc ${size}`)].join('\n');
let player;
let pointing;
let tree;
let beside;
let isWritten = true; // whether the field of lines has the session's, and not what a person wrote

export async function start() {
  player = new Player({
    base: find('base'), over: find('over'), room, onFrame: refresh, onEnd: ended,
    own: () => [numberOf(find('own-width')), numberOf(find('own-height'))],
  });
  tree = new Tree(player, (member) => pointing.pointAtMember(member), (id) => pointing.free(id));
  pointing = new Pointing(player, find('over'), (box) => tree.light(box));
  beside = player.beside = new Beside(player);
  CLASSES.forEach((name) => find('classes').append(listOf(name)));
  wireButtons();
  wireSettings();
  wireSession();
  find('zoom').addEventListener('input', zoomed);
  wireHistory(player, () => run(false));
  find('save').addEventListener('click', () => find('base').toBlob((blob) => download(blob, 'atlas.png')));
  find('save-svg').addEventListener('click', () => {
    const { size, live, free } = outcome();
    const boxes = [...free.map((box) => ({ ...box, label: 'free', isFree: true })), ...live.map((box) => ({ ...box, label: box.id }))];
    download(new Blob([svgOf([{ ...size, boxes }])], { type: 'image/svg+xml' }), 'atlas.svg');
  });
  find('save-json').addEventListener('click', () => {
    download(new Blob([`${JSON.stringify(outcome(), null, 1)}\n`], { type: 'application/json' }), 'atlas.json');
  });
  new ResizeObserver(() => player.refit()).observe(find('stage'));
  player.play(FIRST);
  await fromLink();
  window.addEventListener('hashchange', fromLink);
  return player;
}

function room() {
  const width = find('stage').clientWidth - 2;
  const height = Math.max(260, Math.min(window.innerHeight * 0.62, width * 1.2));
  const zoom = 2 ** (find('zoom').value / 2);
  find('viewport').style.maxHeight = zoom > 1 ? `${height + 2}px` : '';
  return { width: width * zoom, height: height * zoom };
}

/** Draws the atlas larger, with what was in the middle of the view still there; the view is moved by scrolling. */
function zoomed() {
  const view = find('viewport');
  const before = find('base').clientWidth;
  const middle = [view.scrollLeft + view.clientWidth / 2, view.scrollTop + view.clientHeight / 2];
  player.fit();
  const [x, y] = middle.map((at) => at * find('base').clientWidth / before);
  view.scrollTo(x - view.clientWidth / 2, y - view.clientHeight / 2);
}

function wanted() {
  const value = (name) => numberOf(find(`new-${name}`));
  const [width, height, alignX, alignY, small, large] =
    ['width', 'height', 'align-x', 'align-y', 'small', 'large'].map(value);
  return { width, height, alignX, alignY, small, large };
}

// A click that says what came of it.
function press(id, action) {
  find(id).addEventListener('click', () => {
    trouble(null);
    const reply = action();
    if (reply) say(Array.isArray(reply) ? reply.at(-1) : reply);
  });
}

const ACTIONS = {
  add: () => told(player.add()),
  'add-many': addMany,
  free: () => player.freeAny() ?? 'Nothing is live.',
  grow: () => player.grow(),
  rearrange: () => lost(player.rearrange()),
  undo: () => undone(player.undo(), 'Undone'),
  redo: () => undone(player.redo(), 'Done again'),
  run: () => run(!player.isRunning),
};

const undone = (line, word) => (line ? `${word}: ${line}` : 'There is nothing more.');

function told(reply) {
  if (reply[0] === 'none') trouble('There was no room: no free box is large enough. Free some, grow or rearrange.');
  return reply;
}

/** Says which boxes a rearrangement lost. */
function lost(reply) {
  const many = reply.filter((line) => line.startsWith('lost')).length;
  const [which, are] = many === 1 ? ['A box', 'is'] : [`${many} boxes`, 'are'];
  if (many > 0) trouble(`${which} found no room in the new order, and ${are} lost. Undo brings all back.`);
  return reply;
}

function addMany() {
  for (let number = 1; number <= 100; number += 1) {
    const reply = player.add();
    if (reply[0] === 'none') return told(reply);
  }
  return '100 boxes were added.';
}

function run(isRunning) {
  player.run(isRunning);
  return isRunning ? 'It runs.' : 'It is paused.';
}

export function stop() {
  if (player?.isRunning) run(false);
}

// What runs by itself has nothing left to do.
function ended() {
  if (player.mode === 'add') told(['none']);
  else trouble(player.session.live.size ? 'The session is full: begin a new atlas.' : 'Nothing is live any more.');
}

const KEYS = { a: 'add', f: 'free', g: 'grow', r: 'rearrange', u: 'undo', y: 'redo', ' ': 'run' };

function wireButtons() {
  for (const [id, action] of Object.entries(ACTIONS)) press(id, action);
  find('over').addEventListener('keydown', (event) => {
    const id = KEYS[event.key.toLowerCase()];
    if (!id || event.ctrlKey || event.altKey || event.metaKey) return;
    event.preventDefault();
    if (!find(id).disabled) find(id).click();
  });
}

function wireSettings() {
  find('kind').addEventListener('change', () => {
    player.kind = find('kind').value;
    find('own').hidden = player.kind !== 'own';
  });
  find('mode').addEventListener('change', () => {
    player.mode = find('mode').value;
  });
  const setSpeed = () => {
    player.speed = Math.round(10 ** (find('speed').value / 10));
    find('speed-told').textContent = `${count(player.speed)} a second`;
  };
  find('speed').addEventListener('input', setSpeed);
  setSpeed();
  find('new-form').addEventListener('submit', (event) => {
    event.preventDefault();
    trouble(null);
    const reply = player.begin(wanted());
    if (reply[0] === 'ok') return say('A new atlas.');
    player.begin({ width: 512, height: 384, alignX: 1, alignY: 1, small: 32, large: 256 });
    return trouble('"medium from" may not be greater than "large from". Here is an atlas with the usual settings.');
  });
}

function wireSession() {
  find('session').addEventListener('toggle', () => {
    isWritten = true;
    writeSession();
  });
  find('lines').addEventListener('input', () => {
    isWritten = false;
  });
  find('play-lines').addEventListener('click', () => playLines(find('lines').value));
  find('copy-lines').addEventListener('click', copyLines);
  find('copy-link').addEventListener('click', copyLink);
}

/** All that lies in the atlas, by the upper left corners and the sides. */
function outcome() {
  const { session: { width, height, live }, session } = player;
  const sided = ({ x0, y0, x1, y1 }) => ({ x: x0, y: y0, width: x1 - x0, height: y1 - y0 });
  return { size: { width, height }, live: [...live.values()].map((box) => ({ id: box.id, ...sided(box) })), free: session.free().map(sided) };
}

/** Lines that ask for sizes, one after another, in a new atlas like this one. */
function linesOf(sizes) {
  const { width, height, options: { alignX, alignY, small, large } } = player.session;
  const all = [['atlas', width, height, alignX, alignY, small, large], ...sizes.map((size) => ['alloc', ...size])];
  return all.map((words) => words.join(' ')).join('\n');
}

function playLines(text) {
  trouble(null);
  try {
    const sizes = sizesOf(text);
    player.play(sizes ? linesOf(sizes) : text);
    isWritten = true;
    say('The lines were played.');
  } catch (error) {
    trouble(error.message);
  }
}

async function copyLines() {
  writeSession();
  const text = `${player.session.lines.join('\n')}\n`;
  find('copy-lines').textContent = (await copy(text, 'The lines')) ? 'Copied' : 'Copy them from the field';
  setTimeout(() => { find('copy-lines').textContent = 'Copy the lines'; }, 2000);
}

async function copyLink() {
  const fragment = await fragmentOf(player.session.lines.join('\n'));
  history.replaceState(null, '', fragment);
  find('copy-link').textContent = (await copy(location.href, 'The link')) ? 'Copied' : 'Copy it from the address bar';
  setTimeout(() => { find('copy-link').textContent = 'Copy a link to this session'; }, 2000);
  if (fragment.length > 8000) trouble(`The link has ${count(fragment.length)} characters, more than some programs pass on.`);
}

async function fromLink() {
  try {
    const text = await textOf(location.hash);
    if (text !== null) playLines(text);
  } catch (error) {
    trouble(error.message);
  }
}

// A list of the free boxes of a class.
function listOf(name) {
  const list = make('ul', { id: `holes-${name}` });
  return make('details', { className: 'class', open: true }, make('summary', { id: `count-${name}` }), list);
}

function fillList(name, holes) {
  find(`count-${name}`).textContent = `${name}: ${count(holes.length)}`;
  const items = holes.slice(0, LISTED).map((hole) => {
    const button = make('button', { textContent: sides(hole), title: `at ${hole.x0} ${hole.y0}` });
    button.addEventListener('pointerenter', () => pointing.also(hole));
    button.addEventListener('focus', () => pointing.also(hole));
    button.addEventListener('pointerleave', () => pointing.also(null));
    button.addEventListener('blur', () => pointing.also(null));
    return make('li', {}, button);
  });
  if (holes.length > LISTED) items.push(make('li', { textContent: `and ${count(holes.length - LISTED)} more` }));
  find(`holes-${name}`).replaceChildren(...items);
}

let written = 0;
let later = null;

/** Whether what stands beside the atlas is still to be written. */
export const isDue = () => later !== null;

// After each frame. Lists are written at most a few times a second.
function refresh() {
  pointing.refresh();
  clearTimeout(later);
  const wait = written + PAUSE - performance.now();
  if (wait > 0) later = setTimeout(write, wait);
  else write();
}

function write() {
  later = null;
  written = performance.now();
  const { session } = player;
  const classes = [[], [], []];
  for (const hole of session.free()) classes[classOf(hole, session.options)].push(hole);
  CLASSES.forEach((name, at) => fillList(name, classes[at]));
  pointing.extra = null;
  pointing.outline();
  tree.refresh();
  tree.light(pointing.box);
  writeButtons();
  writeHistory(player);
  writeCounts();
  writeSession();
  beside.show();
}

function writeButtons() {
  const { session } = player;
  const size = player.grown();
  find('grow').textContent = size ? `Grow to ${size[0]} × ${size[1]}` : 'Grow';
  find('grow').disabled = !size;
  find('free').disabled = session.live.size === 0;
  find('rearrange').disabled = session.live.size === 0;
  find('undo').disabled = !session.canUndo;
  find('redo').disabled = session.undone.length === 0;
  find('run').textContent = player.isRunning ? 'Stop' : 'Run';
  find('run').setAttribute('aria-pressed', String(player.isRunning));
}

export function writeCounts() {
  if (!player || find('panel-atlas').hidden) return;
  const { session, frame, calls, milliseconds } = player;
  const free = session.free().reduce((sum, hole) => sum + (hole.x1 - hole.x0) * (hole.y1 - hole.y0), 0);
  const used = 100 * (1 - free / (session.width * session.height));
  find('counts').textContent = `${session.width} × ${session.height} pixels · ${count(session.live.size)} live · ` +
    `${count(session.free().length)} free boxes · ${used.toFixed(1)} % used · ${count(session.lines.length)} lines`;
  const rate = player.isRunning && frame.rate ? ` · ${Math.round(frame.rate)} frames a second` : '';
  find('times').textContent = `a call ${milliseconds ? time(milliseconds / calls) : '-'} · last drawing ` +
    `${time(frame.milliseconds)}${rate}`;
}

function writeSession() {
  const { session } = player;
  if (!find('session').open || (player.isRunning && session.lines.length > LONG)) return;
  if (isWritten) find('lines').value = session.lines.join('\n');
  const from = Math.max(0, session.lines.length - 200);
  const texts = session.lines.slice(from).map((line, at) => `${line}: ${session.replies[from + at].join('; ')}`);
  find('replies').value = texts.join('\n');
  find('replies').scrollTop = find('replies').scrollHeight;
}
