// The list of all moves.

import { element } from './page.js';
import { bestFirst, moveWords, resultWords, SIGNS } from './words.js';

function line(move, isHidden) {
  const name = element('span', { class: 'name' }, move.move);
  const attributes = { type: 'button', 'data-move': move.move };
  if (isHidden) {
    return element('button', { ...attributes, 'aria-label': moveWords(move) }, name);
  }
  const words = `${resultWords(move)}${move.best ? ', best' : ''}`;
  return element(
    'button',
    { ...attributes, class: move.result, 'aria-label': `${moveWords(move)}: ${words}` },
    element('span', { class: 'sign' }, SIGNS[move.result]),
    name,
    element('span', { class: 'words' }, resultWords(move)),
  );
}

/** Lists moves, best first, or as the board has them where their values are hidden. `point` is
 * called with a move that is pointed at, and with null after it; `play` with one that is chosen. */
export function showMoves(list, moves, isHidden, { point, play }) {
  const shown = isHidden ? moves : bestFirst(moves);
  const lines = shown.map((move) => {
    const button = line(move, isHidden);
    button.addEventListener('mouseenter', () => point(move));
    button.addEventListener('mouseleave', () => point(null));
    button.addEventListener('focus', () => point(move));
    button.addEventListener('blur', () => point(null));
    button.addEventListener('click', () => play(move));
    return element('li', {}, button);
  });
  list.replaceChildren(...lines);
}
