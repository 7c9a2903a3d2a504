// Positions, the line of play that led to one, and addresses. Nothing here touches the page.
//
// A position is a text, as everywhere in Morris, and the side that is to move: X is a stone of that
// side, O one of the other, and a dot a vacant point.

import { BOARDS, boardOfLength } from './geometry.js';
import { opponent } from './words.js';

export function stoneAt({ text, mover }, point) {
  if (text[point] === '.') return null;
  return text[point] === 'X' ? mover : opponent(mover);
}

/** The position with a stone of a side on a point, or with none. */
export function withStone({ text, mover }, point, side) {
  const mark = side === null ? '.' : side === mover ? 'X' : 'O';
  return { text: text.slice(0, point) + mark + text.slice(point + 1), mover };
}

const exchanged = (text) => text.replace(/[XO]/g, (mark) => (mark === 'X' ? 'O' : 'X'));

/** The position in which each stone has the other colour. */
export const withColoursSwapped = ({ text, mover }) => ({ text: exchanged(text), mover });

/** The position with the same stones in which a side is to move. */
export function withMover({ text, mover }, side) {
  return { text: side === mover ? text : exchanged(text), mover: side };
}

export function countsOf(text) {
  const count = (mark) => text.split(mark).length - 1;
  return { own: count('X'), other: count('O') };
}

export function pairOf({ own, other }) {
  return `${Math.max(own, other)}-${Math.min(own, other)}`;
}

/** The board and the text that someone wrote or pasted, or why they are none. */
export function readText(written) {
  const text = written.trim().toUpperCase();
  const board = boardOfLength(text.length);
  if (!board) {
    return { fault: `A position has 24 characters, or 9 on the grid, not ${text.length}.` };
  }
  if (/[^XO.]/.test(text)) return { fault: 'A position has only the characters X, O and dot.' };
  return { board: board.name, text };
}

// ---- the line of play

export const begin = (position) => ({ steps: [{ ...position, move: null }], at: 0 });

export const current = (line) => line.steps[line.at];

/** The line with a move at its place. What came after stays where it is the same move. */
export function advance(line, move) {
  const { mover } = current(line);
  if (line.steps[line.at + 1]?.move === move.move) return { ...line, at: line.at + 1 };
  const step = { text: move.next, mover: opponent(mover), move: move.move };
  return { steps: [...line.steps.slice(0, line.at + 1), step], at: line.at + 1 };
}

export function goTo(line, at) {
  return { ...line, at: Math.min(Math.max(at, 0), line.steps.length - 1) };
}

// ---- addresses

export const addressOf = (board, { text, mover }) =>
  `#${board}/${text}${mover === 'black' ? '/black' : ''}`;

export const addressOfPair = (board, pair) => `#${board}/pair/${pair}`;

export const addressOfExercise = ({ board, pair, result, least, most, seed }) =>
  `#${board}/find/${pair}/${result}/${least}-${most}/${seed}`;

function readExercise(board, [pair, result, range, seed]) {
  const [, least, most] = /^(\d{1,5})-(\d{1,5})$/.exec(range ?? '') ?? [];
  if (!/^[3-9]-[3-9]$/.test(pair) || !/^(won|lost|draw)$/.test(result)) return null;
  if (least === undefined || !/^\d{1,9}$/.test(seed)) return null;
  return { exercise: { board, pair, result, least, most, seed } };
}

/** What an address says: a position, an exercise or a pair, each with its board; or nothing. */
export function readAddress(hash) {
  const [board, what, ...rest] = hash.replace(/^#/, '').split('/');
  if (!Object.hasOwn(BOARDS, board)) return null;
  if (what === 'find') return readExercise(board, rest);
  if (what === 'pair') return /^[3-9]-[3-9]$/.test(rest[0]) ? { board, pair: rest[0] } : null;
  const found = readText(what ?? '');
  if (found.board !== board || (rest.length && rest[0] !== 'black')) return null;
  return { board, position: { text: found.text, mover: rest.length ? 'black' : 'white' } };
}
