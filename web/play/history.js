// The session's lines as a slider that goes back and forth, over a chart of how full the atlas was after each.
import { colours } from './drawing.js';
import { count, find } from './page.js';

const QUICK = 20000; // lines: in a longer session the slider takes effect where it is let go

export function wireHistory(player, stop) {
  const field = find('line');
  const go = () => {
    stop();
    player.goTo(Number(field.value));
  };
  field.addEventListener('input', () => Number(field.max) <= QUICK && go());
  field.addEventListener('change', go);
}

export function writeHistory({ session }) {
  const all = session.lines.length + session.undone.length;
  const field = find('line');
  Object.assign(field, { min: session.first + 1, max: all });
  field.value = session.lines.length;
  const share = session.chart[session.lines.length - 1] ?? 0;
  find('line-told').textContent = `${count(session.lines.length)} of ${count(all)}, ${(100 * share).toFixed(1)} % full`;
  field.setAttribute('aria-valuetext', find('line-told').textContent);
  draw(find('chart'), session.chart, session.lines.length, all);
}

/** Each column has the highest share of its lines; what can be done again is hatched in a paler colour. */
function draw(canvas, chart, here, all) {
  const pixel = window.devicePixelRatio || 1;
  const [width, height] = [Math.round(canvas.clientWidth * pixel), Math.round(canvas.clientHeight * pixel)];
  if (width === 0) return;
  Object.assign(canvas, { width, height });
  const [on, { live, edge, accent }] = [canvas.getContext('2d'), colours()];
  for (let x = 0; x < width; x += 1) {
    const from = Math.floor(x * all / width);
    let share = 0;
    for (let at = from; at <= Math.max(from, Math.ceil((x + 1) * all / width) - 1); at += 1) share = Math.max(share, chart[at] ?? 0);
    const top = Math.round(height * (1 - share));
    on.globalAlpha = from < here ? 1 : 0.4;
    on.fillStyle = live;
    on.fillRect(x, top, 1, height - top);
    on.fillStyle = edge;
    on.fillRect(x, top, 1, Math.max(1, Math.round(pixel)));
  }
  on.globalAlpha = 1;
  on.fillStyle = accent;
  on.fillRect(Math.min(width - 2, Math.round(here * width / all)) - 1, 0, 2, height);
}
