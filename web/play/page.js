// Small helpers of the page.
export const find = (id) => document.getElementById(id);

export function make(name, properties = {}, ...inside) {
  const made = Object.assign(document.createElement(name), properties);
  made.append(...inside);
  return made;
}

export const count = (number) => Math.round(number).toLocaleString('en');

/** Whether a person asked for less motion. */
export const isStill = () => window.matchMedia('(prefers-reduced-motion: reduce)').matches;

/** A time in words, from milliseconds. */
export function time(milliseconds) {
  const shown = (value) => (value < 10 ? value.toFixed(1) : String(Math.round(value)));
  if (milliseconds < 0.001) return `${Math.round(milliseconds * 1e6)} ns`;
  return milliseconds < 1 ? `${shown(milliseconds * 1000)} µs` : `${shown(milliseconds)} ms`;
}

/** Tells screen readers. */
export function say(text) {
  find('said').textContent = text;
}

/** The script runs: what says that it doesn't goes. Gives the module, where the page has it in itself. */
export function begun() {
  find('still').remove();
  const held = find('module');
  return held ? Uint8Array.from(atob(held.textContent), (letter) => letter.charCodeAt(0)) : undefined;
}

/** Shows what went wrong, at the top of the page; nothing hides it. */
export function trouble(text) {
  const note = find('trouble');
  note.hidden = !text;
  note.textContent = text ?? '';
  if (text && note.getBoundingClientRect().top < 0) note.scrollIntoView();
}

export async function copy(text, what) {
  try {
    await navigator.clipboard.writeText(text);
    say(`${what} copied.`);
    return true;
  } catch {
    return false;
  }
}

export function download(blob, name) {
  const link = make('a', { href: URL.createObjectURL(blob), download: name });
  link.click();
  setTimeout(() => URL.revokeObjectURL(link.href), 10000);
}

/** A whole number from a field, kept between its least and its greatest. */
export function numberOf(field) {
  const value = Math.round(Number(field.value));
  const kept = Math.min(Math.max(Number.isFinite(value) ? value : 1, Number(field.min)), Number(field.max));
  field.value = kept;
  return kept;
}
