// The page that explains: six figures over the library, each in a file of its own.
import { Atlas, TextureCache, load } from '../index.js';
import { setColours, wireColours } from './colours.js';
import { cacheFigure } from './how_cache.js';
import { cutFigure } from './how_cut.js';
import { growFigure } from './how_grow.js';
import { moveFigure } from './how_move.js';
import { pickFigure } from './how_pick.js';
import { shelfFigure } from './how_shelf.js';
import { begun, find, trouble } from './page.js';

const FIGURES = { cut: cutFigure, pick: pickFigure, grow: growFigure, cache: cacheFigure, move: moveFigure, shelf: shelfFigure };

async function begin() {
  const held = begun();
  setColours();
  wireColours(() => {});
  try {
    await load(held);
  } catch (error) {
    trouble(`The figures can't be shown, since the library could not be loaded: ${error.message}.`);
    return;
  }
  const made = Object.entries(FIGURES).map(([name, figure]) => [name, figure(find(name).querySelector('figure'))]);
  // For the browser's console, and for the tests.
  window.how = { ...Object.fromEntries(made), api: { Atlas, TextureCache } };
}

begin();
