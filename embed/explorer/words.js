// What is said of values and moves.

const SIDES = { white: 'White', black: 'Black' };

export const SIGNS = { won: '+', draw: '=', lost: '\u2212' };

export const opponent = (side) => (side === 'white' ? 'black' : 'white');

export const sideName = (side) => SIDES[side];

export const plies = (count) => `${count} ${count === 1 ? 'ply' : 'plies'}`;

/** What stands on the board for an outcome: its sign, and its plies. */
export const markOf = ({ result, depth }) => `${SIGNS[result]}${depth ?? ''}`;

/** A result for the player to move, such as "won in 9 plies". */
export function resultWords({ result, depth }) {
  return result === 'draw' ? 'draw' : `${result} in ${plies(depth)}`;
}

/** The value of a position, such as "White wins in 9 plies". */
export function valueWords({ result, depth, own }, mover) {
  if (result === 'draw') return 'Draw';
  const winner = sideName(result === 'won' ? mover : opponent(mover));
  if (depth > 0) return `${winner} wins in ${plies(depth)}`;
  const why = own === 2 ? 'has two stones' : 'can\u2019t move';
  return `${winner} has won: ${sideName(mover)} ${why}`;
}

/** A move for a screen reader. */
export function moveWords({ from, to, taken }) {
  return `${from} to ${to}${taken === null ? '' : `, takes ${taken}`}`;
}

/** The score of an outcome: the greater the better for the player to move. */
export function score({ result, depth }) {
  return result === 'draw' ? 0 : (result === 'won' ? 1 : -1) / (1 + depth);
}

export const bestFirst = (moves) => [...moves].sort((a, b) => score(b) - score(a));

/** What a player's move did to the value of a position: whether it preserved the result, what is
 * to be said, and how many plies it cost. */
export function verdict(before, move) {
  const isPreserved = before.result === move.result;
  if (!isPreserved) {
    const gone = before.result === 'won' ? 'The win' : 'The draw';
    return { isPreserved, cost: 0, text: `${gone} is gone: ${resultWords(move)}.` };
  }
  if (before.result === 'draw') return { isPreserved, cost: 0, text: 'The draw is kept.' };
  const isWon = before.result === 'won';
  const cost = Math.abs(before.depth - move.depth);
  const what = isWon ? 'The win is kept: won' : 'Lost in any case:';
  const less = `${plies(cost)} ${isWon ? 'more' : 'sooner'} than needed`;
  const said = cost ? less : 'and no move is better';
  return { isPreserved, cost, text: `${what} in ${plies(move.depth)}, ${said}.` };
}
