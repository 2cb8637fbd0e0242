// Why a box lies where it does: the lines before its own are carried out once more in another atlas, and its free boxes are
// those that the request could choose from.
import { Session, classOf, isStart, parsed } from './session.js';

const CLASSES = ['small', 'medium', 'large'];
const wide = (box) => box.x1 - box.x0;
const high = (box) => box.y1 - box.y0;
export const sides = (box) => `${wide(box)} × ${high(box)}`;

/** The free boxes before a line was carried out. */
function holesBefore(session, line) {
  const before = new Session();
  const isFirst = (_, at) => isStart(session.lines[at]) && session.replies[at][0] === 'ok';
  before.replay(session.lines.slice(session.lines.slice(0, line).findLastIndex(isFirst), line));
  const holes = before.free();
  before.atlas?.dispose();
  return holes;
}

/** What is known of the choice for a box: the picked free box, its margins, how many others there were. */
export function choiceOf(session, box) {
  if (box.from) return null;
  const holes = holesBefore(session, box.line);
  const picked = holes.find((hole) => hole.x0 === box.x0 && hole.y0 === box.y0);
  const fitting = holes.filter((hole) => wide(hole) >= wide(box) && high(hole) >= high(box));
  const rank = classOf(picked, session.options);
  return {
    picked, rank, holes: holes.length, fitting: fitting.length,
    rivals: fitting.filter((hole) => classOf(hole, session.options) === rank).length,
    margins: [wide(picked) - wide(box), high(picked) - high(box)],
  };
}

function reason(choice, box, options) {
  const [across, down] = choice.margins;
  if (across === 0 && down === 0) return 'It fits exactly, and such a box is taken first.';
  if (across === 0 || down === 0) return 'One side is just as long, and such a box is taken first.';
  if (choice.fitting === 1) return choice.holes === 1 ? '' : 'No other had room.';
  const name = CLASSES[choice.rank];
  if (choice.rivals === 1) return `It was the only ${name} one with room, and the lowest class that has room is taken.`;
  return classOf(box, options) === 2
    ? `Of the ${choice.rivals} ${name} ones with room, a large request takes the one that leaves the most margin.`
    : `Of the ${choice.rivals} ${name} ones with room, the lowest class that has room, it left the least margin.`;
}

/** The lines that tell of a box, with its choice where that was asked for. */
export function told(session, box, choice) {
  const where = `${sides(box)} at ${box.x0} ${box.y0}, ${CLASSES[classOf(box, session.options)]}`;
  if (box.id === undefined) return [`Free box`, where];
  const lines = [`Box ${box.id}`, where, `Line ${box.line + 1}: ${session.lines[box.line]}`];
  if (box.from) return [...lines, `It was placed anew. Before, it was box ${box.from.id} at ${box.from.x0} ${box.from.y0}.`];
  const { numbers } = parsed(session.lines[box.line]);
  if (numbers[0] !== wide(box) || numbers[1] !== high(box)) lines.push('Its sides were rounded up to the alignment.');
  if (!choice) return lines;
  const fits = choice.fitting === choice.holes ? '' : `, ${choice.fitting} of them with room`;
  return [
    ...lines,
    `There ${choice.holes === 1 ? 'was 1 free box' : `were ${choice.holes} free boxes`}${fits}. Picked: ` +
      `${sides(choice.picked)} at ${choice.picked.x0} ${choice.picked.y0}, ${CLASSES[choice.rank]}; ` +
      `margins ${choice.margins[0]} across, ${choice.margins[1]} down.`,
    reason(choice, box, session.options),
  ].filter((line) => line !== '');
}
