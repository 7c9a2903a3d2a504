// What a pair looks like: how many of its positions have each value, as a chart and as a table.

import { made } from './board.js';
import { element, grouped } from './page.js';
import { addressOf } from './state.js';
import { plies, resultWords, SIGNS } from './words.js';

const [WIDTH, HEIGHT, FOOT] = [640, 160, 24];
const RESULTS = { won: 'won', draw: 'drawn', lost: 'lost' };

const sum = (values) => values.reduce((total, { count }) => total + count, 0);

function share(count, all) {
  const part = (100 * count) / all;
  if (part > 0 && part < 0.1) return '< 0.1 %';
  return part > 99.9 && part < 100 ? '> 99.9 %' : `${part.toFixed(1)} %`;
}

/** The numbers of a side as rows: the result, in how many plies, and how many positions. */
function rowsOf(side) {
  const rows = ['won', 'lost'].flatMap((result) =>
    side[result].map(({ depth, count }) => ({ result, depth, count })));
  return rows.sort((a, b) => a.depth - b.depth);
}

function totals(side) {
  const all = { won: sum(side.won), draw: side.drawn, lost: sum(side.lost) };
  const parts = Object.entries(all).filter(([, count]) => count > 0);
  return element(
    'ul',
    { class: 'totals' },
    ...parts.map(([result, count]) =>
      element(
        'li',
        { class: result },
        element('span', { class: 'sign' }, SIGNS[result]),
        ` ${RESULTS[result]}: ${grouped(count)} (${share(count, side.positions)})`,
      )),
  );
}

/** A step between the numbers under a chart, so that there are at most about twelve. */
function stepFor(most) {
  return [1, 2, 5, 10, 20, 50, 100].find((step) => most / step <= 12) ?? 200;
}

function bar({ result, depth, count }, width, greatest, show) {
  const height = Math.max(2, (HEIGHT * Math.log10(count + 1)) / Math.log10(greatest + 1));
  const words = `${resultWords({ result, depth })}: ${grouped(count)}`;
  const place = { x: depth * width, width: Math.max(1, width - 1) };
  const drawn = made('rect', { class: result, ...place, y: HEIGHT - height, height });
  // The whole height answers, so that a low bar can be pointed at.
  const area = made('rect', { class: 'area', ...place, y: 0, height: HEIGHT });
  area.append(made('title', {}, words));
  area.addEventListener('mouseenter', () => show(words));
  area.addEventListener('mouseleave', () => show(''));
  return [drawn, area];
}

function chart(rows, show) {
  const most = Math.max(...rows.map((row) => row.depth), 1);
  const greatest = Math.max(...rows.map((row) => row.count), 1);
  const width = WIDTH / (most + 1);
  const bars = rows.flatMap((row) => bar(row, width, greatest, show));
  const numbers = [];
  for (let depth = 0; depth <= most; depth += stepFor(most)) {
    const place = { x: (depth + 0.5) * width, y: HEIGHT + FOOT - 6 };
    numbers.push(made('text', place, String(depth)));
  }
  const label = 'How many positions are won and lost in how many plies. The table has the numbers.';
  const box = `0 0 ${WIDTH} ${HEIGHT + FOOT}`;
  const foot = made('line', { x1: 0, x2: WIDTH, y1: HEIGHT, y2: HEIGHT });
  return made('svg', { viewBox: box, role: 'img', 'aria-label': label }, ...bars, foot, ...numbers);
}

function table(rows, side) {
  const all = [...rows, { result: 'draw', depth: null, count: side.drawn }];
  const head = ['Value', 'Positions', 'Share'].map((it) => element('th', { scope: 'col' }, it));
  const lines = all.map(({ result, depth, count }) =>
    element(
      'tr',
      { 'data-value': result === 'draw' ? 'draw' : `${result} in ${depth}` },
      element('th', { scope: 'row', class: result },
        `${SIGNS[result]} ${resultWords({ result, depth })}`),
      element('td', { 'data-count': count }, grouped(count)),
      element('td', {}, share(count, side.positions)),
    ));
  return element(
    'div',
    { class: 'scrolls', tabindex: 0, role: 'region', 'aria-label': 'Numbers of positions' },
    element('table', {}, element('thead', {}, element('tr', {}, ...head)),
      element('tbody', {}, ...lines)),
  );
}

function deepest(board, side) {
  const links = ['won', 'lost'].filter((result) => side.deepest[result]).map((result) => {
    const { text, depth } = side.deepest[result];
    const address = addressOf(board, { text, mover: 'white' });
    return element('a', { href: address, class: result }, `${result} in ${plies(depth)}`);
  });
  return element('p', { class: 'deepest' }, links.length ? 'Deepest: ' : '', ...links);
}

function drawnSide(board, side) {
  const rows = rowsOf(side);
  const pointed = element('output', { class: 'pointed' });
  const hint = 'Point at a bar for its number. Heights are logarithmic, the numbers are plies.';
  const show = (words) => { pointed.textContent = words || hint; };
  show('');
  const title = `${side.own} stones to move against ${side.other}`;
  const data = { class: 'side', 'data-own': side.own };
  return element('section', data,
    element('h3', {}, `${title}: ${grouped(side.positions)} positions`),
    totals(side),
    ...(rows.length ? [chart(rows, show), pointed] : []),
    deepest(board, side),
    table(rows, side));
}

/** Shows the counts of a pair. */
export function showCounts(into, board, answer) {
  into.replaceChildren(...answer.sides.map((side) => drawnSide(board, side)));
}
