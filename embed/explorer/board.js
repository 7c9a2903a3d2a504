// Draws the board.

import { pointToward } from './geometry.js';

const SVG = 'http://www.w3.org/2000/svg';
const STONE = 0.36;
const EDGE = 0.75;
const ARROWS = { ArrowUp: [0, -1], ArrowDown: [0, 1], ArrowLeft: [-1, 0], ArrowRight: [1, 0] };

export function made(name, attributes = {}, ...children) {
  const element = document.createElementNS(SVG, name);
  for (const [key, value] of Object.entries(attributes)) element.setAttribute(key, value);
  element.append(...children);
  return element;
}

function drawnPoint([x, y], point) {
  return made(
    'g',
    { class: 'point', role: 'button', tabindex: -1, transform: `translate(${x} ${y})` },
    made('circle', { class: 'hit', r: 0.47 }),
    made('circle', { class: 'dot', r: 0.09 }),
    made('circle', { class: 'stone', r: STONE }),
    made('text', { class: 'number', x: 0.37, y: 0.47 }, String(point)),
    made('rect', { class: 'pill', y: -0.2, height: 0.4, rx: 0.2 }),
    made('text', { class: 'mark', y: 0.105 }),
  );
}

function drawnLines(board) {
  return board.lines.map(([from, to]) => {
    const [[x1, y1], [x2, y2]] = [board.points[from], board.points[to]];
    return made('line', { class: 'line', x1, y1, x2, y2 });
  });
}

/** Moves the keyboard's place on the board to a point. */
function focus(view, point) {
  view.points.forEach((it, place) => it.setAttribute('tabindex', place === point ? 0 : -1));
  view.points[point].focus();
}

function onKey(view, point, event) {
  if (ARROWS[event.key] && !event.altKey && !event.ctrlKey && !event.metaKey) {
    focus(view, pointToward(view.board, point, ARROWS[event.key]));
  } else if (event.key === 'Enter' || event.key === ' ') {
    view.press(point);
  } else {
    return;
  }
  event.preventDefault();
}

/** Draws an empty board. `press` is called with a point that is clicked, touched or entered. */
export function drawBoard(svg, board, press) {
  const points = board.points.map(drawnPoint);
  const view = { board, points, press, arrow: made('g', { class: 'arrow' }) };
  points.forEach((it, point) => {
    it.addEventListener('click', () => {
      focus(view, point);
      press(point);
    });
    it.addEventListener('keydown', (event) => onKey(view, point, event));
  });
  points[0].setAttribute('tabindex', 0);
  const across = board.size + 2 * EDGE;
  svg.setAttribute('viewBox', `${-EDGE} ${-EDGE} ${across} ${across}`);
  svg.replaceChildren(...drawnLines(board), ...points, view.arrow);
  return view;
}

function showMark(element, mark) {
  const [pill, text] = [element.querySelector('.pill'), element.querySelector('.mark')];
  text.textContent = mark?.text ?? '';
  const width = 0.4 + 0.17 * Math.max(text.textContent.length - 1, 0);
  pill.setAttribute('x', -width / 2);
  pill.setAttribute('width', width);
}

function showPoint(element, { stone, mark, classes, label }) {
  const all = ['point', stone ?? 'vacant', mark ? `marked ${mark.kind}` : '', ...classes];
  element.setAttribute('class', all.filter(Boolean).join(' '));
  element.setAttribute('aria-label', label);
  showMark(element, mark);
}

/** The arrow of a move, from stone to stone, with a cross on the stone that it takes. */
function drawnArrow(board, { from, to, taken, kind }) {
  const [[x1, y1], [x2, y2]] = [board.points[from], board.points[to]];
  const length = Math.hypot(x2 - x1, y2 - y1);
  const [ux, uy] = [(x2 - x1) / length, (y2 - y1) / length];
  const [bx, by] = [x2 - 0.3 * ux, y2 - 0.3 * uy];
  const tip = `${x2} ${y2} ${bx - 0.2 * uy} ${by + 0.2 * ux} ${bx + 0.2 * uy} ${by - 0.2 * ux}`;
  const parts = [
    made('line', { x1: x1 + STONE * ux, y1: y1 + STONE * uy, x2: bx, y2: by }),
    made('polygon', { points: tip }),
  ];
  if (taken !== null) {
    const [x, y] = board.points[taken];
    const cross = `M${x - 0.3} ${y - 0.3}l.6 .6m0 -.6l-.6 .6`;
    parts.push(made('path', { d: cross }));
  }
  return made('g', { class: kind }, ...parts);
}

/** Shows what stands on each point, and the arrow of a move or none. */
export function showBoard(view, points, arrow) {
  points.forEach((it, point) => showPoint(view.points[point], it));
  view.arrow.replaceChildren(...(arrow ? [drawnArrow(view.board, arrow)] : []));
}
