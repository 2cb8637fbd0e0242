// The colours that a person chose, else those of the system, and the switch between them.
import { find } from './page.js';

const prefers = window.matchMedia('(prefers-color-scheme: dark)');
let chosen = null;

function kept() {
  try {
    return localStorage.getItem('colours');
  } catch {
    return null; // where nothing may be kept the system's colours hold until the switch is used
  }
}

export function setColours() {
  const name = chosen ?? kept() ?? (prefers.matches ? 'dark' : 'light');
  document.documentElement.dataset.theme = name;
  find('theme').textContent = name === 'dark' ? 'Light colours' : 'Dark colours';
}

export function wireColours(redraw) {
  find('theme').addEventListener('click', () => {
    chosen = document.documentElement.dataset.theme === 'dark' ? 'light' : 'dark';
    try {
      localStorage.setItem('colours', chosen);
    } catch {
      // As above.
    }
    setColours();
    redraw();
  });
  prefers.addEventListener('change', () => {
    setColours();
    redraw();
  });
}
