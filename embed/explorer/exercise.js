// An exercise: a position is to be played against best play, while its values are hidden.

import { plies, sideName, verdict } from './words.js';

const ASKED = {
  won: 'moves and wins. Find how.',
  lost: 'loses against best play. Hold out as long as you can.',
  draw: 'holds a draw. Keep it.',
};
const GONE = { won: 'the win', draw: 'the draw', lost: 'the result' };

const nameOf = ({ text }, mover) => `${mover} ${text}`;

/** An exercise from the parameters that ask for it and the position that was found. */
export function begun(parameters, { text, result }) {
  const side = 'white';
  const state = { isOver: false, isRevealed: false, waits: false, message: '' };
  return { parameters, side, result, ...state, played: [], seen: [nameOf({ text }, side)] };
}

export const task = ({ side, result }) => `${sideName(side)} ${ASKED[result]}`;

/** Whether whoever sits at the page may move. */
export function mayMove(exercise, mover) {
  return !exercise || exercise.isOver || (mover === exercise.side && !exercise.waits);
}

export const hidesValues = (exercise) =>
  Boolean(exercise) && !exercise.isRevealed && !exercise.isOver;

/** The exercise after a move of its player, made at a place in the line of play. Where the result
 * wasn't preserved it waits, so that the move can be taken back. */
export function judged(exercise, place, before, move) {
  const { isPreserved, cost, text } = verdict(before, move);
  const earlier = exercise.played.filter((it) => it.place < place);
  const played = [...earlier, { place, cost, isPreserved }];
  return { ...exercise, played, message: text, waits: !isPreserved };
}

/** The exercise where the line of play is gone back to a place. */
export function takenBack(exercise, place) {
  const played = exercise.played.filter((it) => it.place < place);
  const seen = exercise.seen.slice(0, 1);
  return { ...exercise, played, seen, message: '', waits: false, isOver: false };
}

/** What is said of all moves of the player. */
function summary({ played, result }) {
  const count = `${played.length} ${played.length === 1 ? 'move' : 'moves'}`;
  if (played.some((it) => !it.isPreserved)) {
    return `${count}, and ${GONE[result]} was gone on the way.`;
  }
  const cost = played.reduce((sum, it) => sum + it.cost, 0);
  if (!cost) return `${count}, and none was better.`;
  return `${count}, ${plies(cost)} ${result === 'won' ? 'more' : 'fewer'} than by best play.`;
}

/** The exercise at a new position of the line of play: over where the game is, and where a draw
 * that was to be held comes to a position again. */
export function reached(exercise, answer, mover) {
  const name = nameOf(answer, mover);
  const next = { ...exercise, seen: [...exercise.seen, name] };
  const over = (end) =>
    ({ ...next, isOver: true, message: `${exercise.message} ${end}: ${summary(exercise)}`.trim() });
  if (answer.depth === 0) return over(mover === exercise.side ? 'You have lost' : 'You have won');
  const isHeld = exercise.result === 'draw' && answer.result === 'draw';
  if (isHeld && exercise.seen.includes(name)) return over('The position repeats, a draw');
  return next;
}
