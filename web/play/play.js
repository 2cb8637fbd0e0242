// The page: loads the library, and has tabs and the foot.
import { load } from './library.js';
import { setColours, wireColours } from './colours.js';
import { begun, find, trouble } from './page.js';
import * as atlas from './atlas.js';
import * as cache from './cache.js';
import * as sheet from './sheet.js';

const TABS = ['atlas', 'cache', 'sheet'];

/** The tab that an address names by its fragment; null where it names none. */
const named = () => TABS.find((each) => location.hash === `#${each}`) ?? null;

function chosen(name) {
  for (const each of TABS) {
    const isIt = each === name;
    find(`tab-${each}`).setAttribute('aria-selected', String(isIt));
    find(`tab-${each}`).tabIndex = isIt ? 0 : -1;
    find(`panel-${each}`).hidden = !isIt;
  }
  trouble(null);
  atlas.stop();
  cache.stop();
  ({ atlas, cache, sheet })[name].writeCounts();
}

/** Chooses a tab, and has the address name it, so that it can be kept and passed on. */
function choose(name) {
  chosen(name);
  if (name !== 'atlas') history.replaceState(null, '', `#${name}`);
  else if (named()) history.replaceState(null, '', location.pathname + location.search);
}

function wireTabs() {
  window.addEventListener('hashchange', () => named() && chosen(named()));
  TABS.forEach((name, at) => {
    const tab = find(`tab-${name}`);
    tab.addEventListener('click', () => choose(name));
    tab.addEventListener('keydown', (event) => {
      const step = { ArrowRight: 1, ArrowLeft: TABS.length - 1 }[event.key];
      if (!step) return;
      const next = TABS[(at + step) % TABS.length];
      choose(next);
      find(`tab-${next}`).focus();
    });
  });
}

async function begin() {
  const held = begun();
  setColours();
  wireTabs();
  try {
    await load(held);
  } catch (error) {
    trouble(`The library could not be loaded: ${error.message}. The page needs a web server, and a browser with WebAssembly.`);
    return;
  }
  const player = await atlas.start();
  const shown = cache.start();
  const packed = sheet.start();
  wireColours(() => {
    player.fit();
    shown.redraw();
  });
  find('panel-atlas').parentElement.inert = false;
  if (named()) chosen(named());
  // For the browser's console, and for the tests.
  window.play = { player, cache: shown, sheet: packed, isDue: atlas.isDue };
}

begin();
