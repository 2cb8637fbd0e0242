// The tab of sheets: pictures of a person are packed into one or several, which can be downloaded with where each lies.
import { pack, packDense, packGroups, packPages } from './library.js';
import { count, download, find, make, numberOf, say, time, trouble } from './page.js';
import { sizesOf, svgOf } from './sizes.js';

const MOST_PICTURES = 5000;
const LISTED = 5; // of the files that are left out, by their names
let shown;

// What went wrong, in words, by the code of the library's error.
const WRONG = { EMPTY_SPRITE: 'is empty', GREAT_SPRITE: 'is too large' };

class Packed {
  constructor() {
    this.pictures = [];
    this.sheet = null;
  }

  options() {
    const greatest = Number(find('sheet-greatest').value);
    const kind = find('sheet-kind').value;
    const sheets = kind === 'heights' ? { kind, width: numberOf(find('sheet-width')), greatest } : { kind, greatest };
    return {
      sheets, padding: numberOf(find('sheet-padding')), turn: find('sheet-turn').checked,
      effort: Number(find('sheet-effort').value),
    };
  }

  /** Takes more pictures; one with a name that is known takes its place. */
  take(pictures) {
    const known = this.isExample ? [] : this.pictures;
    this.isExample = false;
    const named = new Map([...known, ...pictures].map((each) => [each.name, each]));
    this.pictures = [...named.values()].sort((a, b) => (a.name < b.name ? -1 : 1)).slice(0, MOST_PICTURES);
    this.pack();
  }

  /** The sheets for these sizes, with the number of its sheet at each place; null where none that is allowed takes them all. */
  packed(sizes) {
    if (this.isSeveral) {
      return find('sheet-groups').checked ? packGroups(sizes, this.folders(), this.options()) : packPages(sizes, this.options());
    }
    const one = (find('sheet-dense').checked ? packDense : pack)(sizes, this.options());
    return one && { sizes: [one], places: one.places.map((place) => ({ page: 0, ...place })) };
  }

  get isSeveral() {
    return find('sheet-pages').value === 'several';
  }

  /** Of each picture the number of its folder, which is what its name has before the last stroke; null where it has none. */
  folders() {
    const numbers = new Map();
    return this.pictures.map(({ name }) => {
      const folder = name.slice(0, Math.max(0, name.lastIndexOf('/')));
      if (folder === '') return null;
      if (!numbers.has(folder)) numbers.set(folder, numbers.size);
      return numbers.get(folder);
    });
  }

  pack() {
    this.sheet = null;
    const begun = performance.now();
    try {
      if (this.pictures.length > 0) this.sheet = this.packed(this.pictures.map(({ width, height }) => ({ width, height })));
    } catch (error) {
      trouble(WRONG[error.code] ? `${this.pictures[error.sprite].name} ${WRONG[error.code]}.` : error.message);
    }
    this.milliseconds = performance.now() - begun;
    this.show();
  }

  show() {
    const { sheet } = this;
    find('sheet').hidden = find('sheet-png').disabled = find('sheet-json').disabled = find('sheet-svg').disabled = !sheet;
    find('sheet-png').hidden = Boolean(sheet) && sheet.sizes.length > 1;
    find('sheet-told').textContent = this.words();
    find('sheets').replaceChildren(find('sheet'));
    sheet?.sizes.forEach((size, at) => this.draw(size, at));
    writeCounts();
  }

  /** How many of 100 pixels of the sheets the pictures have. */
  share() {
    const areaOf = (sizes) => sizes.reduce((sum, { width, height }) => sum + width * height, 0);
    return (100 * areaOf(this.pictures) / areaOf(this.sheet.sizes)).toFixed(1);
  }

  words() {
    const { length } = this.pictures;
    if (length === 0) return 'No pictures yet.';
    const pictures = length === 1 ? '1 picture' : `${count(length)} pictures`;
    if (!this.sheet) {
      return `${pictures}: ${this.isSeveral ? 'one of them is too large for an empty sheet' : 'no sheet that is allowed takes them all'}.`;
    }
    const sizes = this.sheet.sizes.map(({ width, height }) => `${width} × ${height}`);
    if (sizes.length === 1) return `${pictures} on a sheet of ${sizes[0]}; ${this.share()} % of it is used.`;
    const listed = sizes.length > LISTED ? [...sizes.slice(0, LISTED), `${count(sizes.length - LISTED)} more`] : sizes;
    return `${pictures} on ${count(sizes.length)} sheets: ${listed.join(', ')}; ${this.share()} % of their area is used.`;
  }

  /** Draws a sheet; of several each has its size and a button below it. */
  draw({ width, height }, page) {
    const isOne = this.sheet.sizes.length === 1;
    const canvas = page === 0 ? find('sheet') : make('canvas', { role: 'img' });
    canvas.setAttribute('aria-label', isOne ? 'The sheet' : `Sheet ${page}`);
    Object.assign(canvas, { width, height });
    canvas.style.width = `${width * Math.max(1, Math.floor(Math.min(512 / width, 512 / height) / (isOne ? 1 : 2)))}px`;
    const on = canvas.getContext('2d');
    this.sheet.places.forEach((place, at) => place.page === page && paint(on, place, this.pictures[at]));
    if (isOne) return;
    const button = make('button', { textContent: `Download ${imageOf(page)}` });
    button.addEventListener('click', () => canvas.toBlob((blob) => download(blob, imageOf(page))));
    const held = this.sheet.places.filter((place) => place.page === page).length;
    find('sheets').append(make('figure', {}, canvas, make('figcaption', {}, `${width} × ${height}, ${count(held)} pictures `, button)));
  }

  /** Where each picture lies, in the form that docs/PACK.md describes; of several sheets in that of Phaser's `multiatlas`. */
  json() {
    const frames = this.sheet.places.map(({ page, x, y, turned }, at) => {
      const { name, width: w, height: h } = this.pictures[at];
      return { page, name, frame: { x, y, w, h }, rotated: turned };
    });
    const sizes = this.sheet.sizes.map(({ width: w, height: h }) => ({ w, h }));
    const one = () => ({ frames: Object.fromEntries(frames.map(({ name, frame, rotated }) => [name, { frame, rotated }])),
      meta: { image: 'sheet.png', size: sizes[0] } });
    const several = () => ({ textures: sizes.map((size, at) => ({ image: imageOf(at), format: 'RGBA8888', size, scale: 1,
      frames: frames.filter(({ page }) => page === at).map(({ name, frame, rotated }) => ({ filename: name, frame, rotated })) })) });
    return `${JSON.stringify(sizes.length === 1 ? one() : several(), null, 1)}\n`;
  }
}

const imageOf = (page) => `sheet-${page}.png`;

/** The sheets beside one another, with the name of what lies at each place. */
function drawingOf({ sizes, places }, pictures) {
  return svgOf(sizes.map((size, page) => ({ ...size,
    boxes: places.map((place, at) => ({ ...place, label: pictures[at].name })).filter((place) => place.page === page) })));
}

/** Packs sizes that were pasted, each as a picture of one colour. */
function takeSizes(text) {
  trouble(null);
  const sizes = sizesOf(text);
  if (!sizes) return trouble('These are no sizes: 20 60, 20x60 or 20,60 in each line, or JSON such as [[20, 60]] or [{ "w": 20, "h": 60 }].');
  const pictures = sizes.map(([width, height], at) => {
    const image = Object.assign(document.createElement('canvas'), { width: 1, height: 1 });
    const on = image.getContext('2d');
    on.fillStyle = `hsl(${at * 47 % 360} 60% 65%)`;
    on.fillRect(0, 0, 1, 1);
    return { name: `size ${String(at + 1).padStart(5, '0')}`, image, width, height };
  });
  shown.pictures = [];
  shown.take(pictures);
  leftOut([]);
  return say(shown.words());
}

/** Paints a picture at its place. */
function paint(on, { x, y, turned }, { image, width, height }) {
  on.save();
  on.translate(x + (turned ? height : 0), y);
  if (turned) on.rotate(Math.PI / 2);
  on.drawImage(image, 0, 0, width, height);
  on.restore();
}

/** A file as a picture; null where it is none. */
async function pictureOf(file, name) {
  const image = new Image();
  image.src = URL.createObjectURL(file);
  try {
    await image.decode();
    const { naturalWidth: width, naturalHeight: height } = image;
    return width > 0 && height > 0 ? { name, image, width, height } : null;
  } catch {
    return null;
  } finally {
    URL.revokeObjectURL(image.src);
  }
}

async function takeFiles(files) {
  trouble(null);
  const read = await Promise.all(files.map(({ file, name }) => (file.type.startsWith('image/') ? pictureOf(file, name) : null)));
  const pictures = read.filter((each) => each);
  leftOut(files.filter((_, at) => !read[at]).map(({ name }) => name));
  if (pictures.length === 0) return trouble('None of these files is a picture that this browser reads.');
  shown.take(pictures);
  return say(find('sheet-left').hidden ? shown.words() : find('sheet-left').textContent);
}

/** Says in sight which files are none that this browser reads as pictures. */
function leftOut(names) {
  const note = find('sheet-left');
  note.hidden = names.length === 0;
  const listed = names.length > LISTED ? [...names.slice(0, LISTED), `${count(names.length - LISTED)} more`] : names;
  note.textContent = names.length === 1 ? `Left out, since it is no picture that this browser reads: ${names[0]}`
    : `Left out, since they are no pictures that this browser reads: ${count(names.length)} files, ${listed.join(', ')}`;
}

/** All files of a dropped file or folder. */
async function filesIn(entry) {
  if (entry.isFile) {
    const file = await new Promise((resolve, reject) => { entry.file(resolve, reject); });
    return [{ file, name: entry.fullPath.replace(/^\//, '') }];
  }
  const reader = entry.createReader();
  const found = [];
  for (;;) {
    const some = await new Promise((resolve, reject) => { reader.readEntries(resolve, reject); });
    if (some.length === 0) return (await Promise.all(found.map(filesIn))).flat();
    found.push(...some);
  }
}

async function drop(event) {
  event.preventDefault();
  find('panel-sheet').classList.remove('over');
  const entries = [...event.dataTransfer.items].map((item) => item.webkitGetAsEntry?.()).filter((each) => each);
  try {
    if (entries.length > 0) return await takeFiles((await Promise.all(entries.map(filesIn))).flat());
    return await takeFiles([...event.dataTransfer.files].map((file) => ({ file, name: file.name })));
  } catch (error) {
    return trouble(`What was dropped can't be read: ${error.message}`);
  }
}

// Some pictures, for those who have none at hand.
function example() {
  const pictures = [];
  for (let number = 1; number <= 30; number += 1) {
    const width = 16 + (number * 37) % 64, height = 16 + (number * 53) % 72;
    const image = make('canvas', { width, height });
    const on = image.getContext('2d');
    on.fillStyle = `hsl(${number * 47} 60% 72%)`;
    on.beginPath();
    if (number % 3 === 0) on.rect(0, 0, width, height);
    else if (number % 3 === 1) on.ellipse(width / 2, height / 2, width / 2, height / 2, 0, 0, 7);
    else [[0, height], [width / 2, 0], [width, height]].forEach(([x, y]) => on.lineTo(x, y));
    on.fill();
    on.fillStyle = '#10243f';
    on.font = '12px sans-serif';
    on.textAlign = 'center';
    on.fillText(number, width / 2, height * (number % 3 === 2 ? 0.9 : 0.5) + (number % 3 === 2 ? -2 : 4));
    const folder = ['squares', 'rounds', 'triangles'][number % 3];
    pictures.push({ name: `${folder}/${String(number).padStart(2, '0')}.png`, image, width, height });
  }
  shown.take(pictures);
  shown.isExample = true;
}

function wireFiles() {
  for (const id of ['sheet-files', 'sheet-folder']) {
    find(id).addEventListener('change', async () => {
      await takeFiles([...find(id).files].map((file) => ({ file, name: file.webkitRelativePath || file.name })));
      find(id).value = '';
    });
  }
  const panel = find('panel-sheet');
  window.addEventListener('dragover', (event) => {
    event.preventDefault();
    panel.classList.add('over');
  });
  window.addEventListener('dragleave', () => panel.classList.remove('over'));
  window.addEventListener('drop', (event) => {
    event.preventDefault();
    if (!panel.hidden) drop(event);
  });
}

export function writeCounts() {
  if (!shown || find('panel-sheet').hidden) return;
  const { length } = shown.pictures;
  find('counts').textContent = length === 1 ? '1 picture' : `${count(length)} pictures`;
  find('times').textContent = shown.pictures.length ? `packed in ${time(shown.milliseconds)}` : '';
}

export function start() {
  shown = new Packed();
  wireFiles();
  find('sheet-example').addEventListener('click', () => {
    trouble(null);
    leftOut([]);
    example();
    say(shown.words());
  });
  find('sheet-none').addEventListener('click', () => {
    shown.pictures = [];
    shown.isExample = false;
    leftOut([]);
    shown.pack();
  });
  for (const id of ['kind', 'width', 'greatest', 'pages', 'groups', 'padding', 'turn', 'dense', 'effort']) {
    find(`sheet-${id}`).addEventListener('change', () => {
      find('sheet-width-label').hidden = find('sheet-kind').value !== 'heights';
      find('sheet-groups').disabled = !shown.isSeveral;
      find('sheet-dense').disabled = shown.isSeveral;
      trouble(null);
      shown.pack();
    });
  }
  find('sheet-png').addEventListener('click', () => find('sheet').toBlob((blob) => download(blob, 'sheet.png')));
  find('sheet-take').addEventListener('click', () => takeSizes(find('sheet-sizes').value));
  find('sheet-svg').addEventListener('click', () => {
    download(new Blob([drawingOf(shown.sheet, shown.pictures)], { type: 'image/svg+xml' }), 'sheet.svg');
  });
  find('sheet-json').addEventListener('click', () => {
    download(new Blob([shown.json()], { type: 'application/json' }), 'sheet.json');
  });
  example();
  return shown;
}
