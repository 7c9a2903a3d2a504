// What the board shows, from the state of the page.

import { hidesValues, mayMove } from './exercise.js';
import { current, stoneAt } from './state.js';
import { markOf, resultWords, sideName, score } from './words.js';

const best = (moves) => moves.reduce((a, b) => (score(b) > score(a) ? b : a));

function grouped(moves, point) {
  const groups = new Map();
  for (const move of moves) groups.set(point(move), [...(groups.get(point(move)) ?? []), move]);
  return groups;
}

/** The moves that may be made now. */
export function movesNow({ mode, answer, exercise, line }) {
  return answer && mode !== 'setup' && mayMove(exercise, current(line).mover) ? answer.moves : [];
}

/** The marked points, each with the moves that it stands for: those that a picked stone may go to,
 * or the stones that it may take where it was said where it goes. */
function marked(state) {
  const { picked, goal } = state;
  if (picked === null) return new Map();
  const moves = movesNow(state).filter((move) => move.from === picked);
  if (goal === null) return grouped(moves, (move) => move.to);
  return grouped(moves.filter((move) => move.to === goal), (move) => move.taken);
}

function markFor(moves, isHidden, isCapture) {
  const move = best(moves);
  const goes = move.taken === null ? 'may go here' : 'may go here and take';
  const verb = isCapture ? 'may be taken' : goes;
  if (isHidden) return { kind: 'plain', text: isCapture ? '\u00d7' : '', words: verb };
  return { kind: move.result, text: markOf(move), words: `${verb}: ${resultWords(move)}` };
}

function scenePoint(state, point, marks, movable) {
  const side = stoneAt(current(state.line), point);
  const isCapture = state.goal !== null;
  const moves = marks.get(point);
  const mark = moves && markFor(moves, hidesValues(state.exercise), isCapture);
  const classes = [
    point === state.picked ? 'picked' : '',
    point === state.goal ? 'goal' : '',
    movable.has(point) ? 'movable' : '',
  ];
  const words = [side ? `${sideName(side)} stone` : 'vacant'];
  if (point === state.picked) words.push('picked');
  if (mark) words.push(mark.words);
  return { stone: side, mark, classes, label: `Point ${point}: ${words.join(', ')}` };
}

function arrowOf({ shown, exercise }) {
  if (!shown) return null;
  return { ...shown, kind: hidesValues(exercise) ? 'plain' : shown.result };
}

/** What stands on each point, and the arrow of the move that is pointed at. */
export function sceneOf(state) {
  const marks = marked(state);
  const movable = new Set(movesNow(state).map((move) => move.from));
  const text = current(state.line).text;
  const points = [...text].map((_, point) => scenePoint(state, point, marks, movable));
  return { points, arrow: arrowOf(state) };
}
