// The page: what is shown, and what happens where something is pressed.

import { drawBoard, showBoard } from './board.js';
import { showCounts } from './chart.js';
import * as exercises from './exercise.js';
import { BOARDS } from './geometry.js';
import { showMoves } from './moves.js';
import { at, element, pause } from './page.js';
import { movesNow, sceneOf } from './scene.js';
import { askCounts, askExercise, askPairs, askPosition, Refused } from './server.js';
import * as states from './state.js';
import { opponent, sideName, valueWords } from './words.js';

const { current } = states;
const PLY = 700;
// What is shown first, where there are tables of it.
const FIRST = {
  nine: ['OXO.OXO.XX..............', 'XOXXOO..................'],
  grid: ['XXX.OO.O.'],
};

const state = {
  served: null, // the boards and pairs that there are
  board: 'nine',
  mode: 'play',
  line: null, // the line of play
  answer: null, // what the server says of the position
  fault: null, // or why it says nothing
  note: '',
  picked: null, // the stone that is to move
  goal: null, // where it goes, while it is open which stone it takes
  shown: null, // the move that is pointed at
  exercise: null,
  runs: 0, // how many lines of best play were begun or stopped
  isRunning: false,
};
let view = null;
// Of answers that come late only that of the last arrival is shown.
let arrivals = 0;
let listed = {};
const NONE = [];

// ---- showing

function showControls() {
  const { mode, exercise, line, answer, fault } = state;
  document.body.dataset.mode = mode;
  for (const it of document.querySelectorAll('[data-in]')) {
    it.hidden = !it.dataset.in.split(' ').includes(mode);
  }
  for (const it of document.querySelectorAll('[data-to]')) {
    it.setAttribute('aria-pressed', it.dataset.to === mode);
  }
  const isAsked = exercise && !exercise.isOver;
  at('start').disabled = at('back').disabled = line.at === 0;
  at('forward').disabled = Boolean(isAsked) || line.at === line.steps.length - 1;
  at('best').disabled = Boolean(isAsked || fault || (answer && !answer.moves.length));
  at('best').textContent = state.isRunning ? 'Stop' : 'Best line';
  at('answers').hidden = mode !== 'find' || !isAsked;
  at('again').hidden = at('on').hidden = !exercise?.waits;
  at('reveal').hidden = Boolean(exercise?.isRevealed);
  document.querySelector(`[name=mover][value=${current(line).mover}]`).checked = true;
  at('boards').value = state.board;
}

function showPosition() {
  const { points, arrow } = sceneOf(state);
  showBoard(view, points, arrow);
}

/** Shows a move on the board: none, where it is one of a position that has gone. */
function point(move) {
  state.shown = state.answer?.moves.includes(move) ? move : null;
  showPosition();
}

/** Lists the moves that may be made, unless they are listed already. */
function showList(moves, isHidden) {
  if (listed.moves === moves && listed.isHidden === isHidden) return;
  const list = at('moves');
  const isKeyboard = list.querySelector(':focus-visible') !== null;
  state.shown = null;
  showMoves(list, moves, isHidden, { point, play });
  at('moves-title').textContent = moves.length === 1 ? '1 move' : `${moves.length} moves`;
  at('moves-title').hidden = !moves.length;
  listed = { moves, isHidden };
  // Whoever chooses moves by the keyboard goes on at the list of the next position.
  if (isKeyboard) list.querySelector('button')?.focus();
}

function showValue() {
  const { answer, exercise, line } = state;
  const { mover } = current(line);
  const isOver = answer && !answer.moves.length;
  const isShown = answer && !exercises.hidesValues(exercise);
  at('turn').textContent = isOver ? 'The game is over' : `${sideName(mover)} to move`;
  at('turn').className = isOver ? '' : mover;
  at('value').textContent = isShown ? valueWords(answer, mover) : '';
  at('value').className = isShown ? answer.result : '';
}

function showPanel() {
  const { answer, exercise, fault, line } = state;
  at('task').textContent = exercise ? exercises.task(exercise) : '';
  at('note').textContent = fault?.error ?? (state.note || exercise?.message || '');
  at('command').textContent = fault?.command ?? '';
  at('command').hidden = !fault?.command;
  at('played').textContent = line.steps.slice(1, line.at + 1).map((it) => it.move).join(' ');
  showValue();
  // While the server is asked, the list stays as it was, so that the page doesn't jump.
  if (!answer && !fault) return;
  const mayMove = answer && exercises.mayMove(exercise, current(line).mover);
  showList(mayMove ? answer.moves : NONE, exercises.hidesValues(exercise));
}

function show() {
  showControls();
  if (state.mode === 'pair') return;
  showPanel();
  showPosition();
  const { text, mover } = current(state.line);
  if (document.activeElement !== at('text')) at('text').value = text;
  // Whose answer is on the page: for whoever reads it from outside.
  const isKnown = state.answer || state.fault;
  document.body.dataset.shown = isKnown ? `${state.board}/${text}/${mover}` : '';
}

// ---- positions

function keepAddress() {
  const { board, exercise, line } = state;
  const address = exercise ? states.addressOfExercise(exercise.parameters)
    : states.addressOf(board, current(line));
  if (location.hash !== address) history.replaceState(null, '', address);
}

/** Why the server needn't be asked for a position: no position is like that, or its table isn't
 * there. */
function faultOf(board, position) {
  const { own, other } = states.countsOf(position.text);
  if (own < 2 || own > 9 || other < 3 || other > 9) {
    const [side, foe] = [position.mover, opponent(position.mover)].map(sideName);
    const there = `${side} has ${own} stones and ${foe} ${other}`;
    return { error: `${there}: the side to move needs 2 to 9, and the other one 3 to 9.` };
  }
  const pair = states.pairOf({ own, other });
  if (own === 2 || state.served.boards[board].some((it) => it.pair === pair)) return null;
  const command = `./morris build ${board} ${pair} --classes --into ${state.served.folder}`;
  return { error: `There is no table of ${pair}. This makes it:`, command };
}

/** What a call of the server gives, or its refusal as `fault`. */
async function answered(call) {
  try {
    return await call;
  } catch (error) {
    if (!(error instanceof Refused)) throw error;
    return { fault: error.answer };
  }
}

/** Shows the position that the line of play has come to, and then what the server says of it.
 * Answers whether it is still there. */
async function arrive() {
  const position = current(state.line);
  const arrival = ++arrivals;
  const fault = faultOf(state.board, position);
  Object.assign(state, { answer: null, fault, note: '', picked: null, goal: null, shown: null });
  keepAddress();
  show();
  if (fault) return true;
  const found = await answered(askPosition(state.board, position.text));
  if (arrival !== arrivals) return false;
  Object.assign(state, found.fault ? found : { answer: found });
  show();
  return true;
}

function stop() {
  state.runs += 1;
  state.isRunning = false;
}

const emptyOf = (board) => ({ text: '.'.repeat(BOARDS[board].points.length), mover: 'white' });

/** A position of a board to begin with, of which there is a table; or an empty board. */
function firstOf(board) {
  const positions = FIRST[board].map((text) => ({ text, mover: 'white' }));
  return positions.find((it) => !faultOf(board, it)) ?? emptyOf(board);
}

function useBoard(name) {
  if (view?.board.name === name) return;
  state.board = name;
  state.line = states.begin(firstOf(name));
  view = drawBoard(at('board'), BOARDS[name], press);
  fillPairs();
}

/** Begins a new line of play. */
function setPosition(board, position, mode = state.mode) {
  stop();
  useBoard(board);
  Object.assign(state, { mode, exercise: null, line: states.begin(position) });
  return arrive();
}

function setFirst(board) {
  const position = firstOf(board);
  const mode = state.mode === 'find' ? 'find' : 'play';
  return setPosition(board, position, faultOf(board, position) ? 'setup' : mode);
}

/** Takes a text that was written or pasted. */
function take(written) {
  const { board, text, fault } = states.readText(written);
  if (fault) {
    showNote(fault);
  } else if (board !== state.board || text !== current(state.line).text) {
    const mode = state.mode === 'setup' ? 'setup' : 'play';
    setPosition(board, { text, mover: 'white' }, mode);
  }
}

function put(place, side) {
  const position = current(state.line);
  const isSame = states.stoneAt(position, place) === side;
  setPosition(state.board, states.withStone(position, place, isSame ? null : side));
}

// ---- moves

async function play(move) {
  if (!state.answer?.moves.includes(move)) return undefined;
  stop();
  if (state.mode === 'setup') state.mode = 'play';
  if (state.exercise && !state.exercise.isOver) return playExercise(move);
  state.line = states.advance(state.line, move);
  return arrive();
}

function pick(place) {
  const isOwn = movesNow(state).some((move) => move.from === place);
  state.picked = isOwn && place !== state.picked ? place : null;
  state.goal = null;
  state.note = '';
  show();
}

function pressInPlay(place) {
  const { picked, goal } = state;
  const moves = movesNow(state).filter((move) => move.from === picked);
  const capture = moves.find((move) => move.to === goal && move.taken === place);
  if (goal !== null && capture) return play(capture);
  const [move] = moves.filter((it) => it.to === place);
  if (!move) return pick(place);
  if (move.taken === null) return play(move);
  state.goal = place;
  return showNote('Which stone is taken?');
}

function press(place) {
  stop();
  if (state.mode !== 'setup') return pressInPlay(place);
  return put(place, document.querySelector('[name=tool]:checked').value);
}

function showNote(note) {
  state.note = note;
  show();
}

function letGo() {
  stop();
  Object.assign(state, { picked: null, goal: null, note: '' });
  show();
}

/** Goes to a place of the line of play; in an exercise to the last turn of its player before. */
function go(place) {
  stop();
  let to = place;
  if (state.exercise) {
    while (to > 0 && state.line.steps[to].mover !== state.exercise.side) to -= 1;
    state.exercise = exercises.takenBack(state.exercise, to);
  }
  state.line = states.goTo(state.line, to);
  return arrive();
}

/** Plays on by best moves, a ply at a time, until the end, until a position comes again, or until
 * it is stopped. */
async function runBest() {
  if (state.isRunning) return letGo();
  stop();
  const run = state.runs;
  const seen = new Set();
  state.isRunning = true;
  while (run === state.runs) {
    const { text, mover } = current(state.line);
    const best = state.answer?.moves.find((move) => move.best);
    const isAgain = seen.has(`${mover} ${text}`);
    if (!best || isAgain) {
      stop();
      return showNote(isAgain ? 'The position repeats: a draw.' : '');
    }
    seen.add(`${mover} ${text}`);
    state.line = states.advance(state.line, best);
    await arrive();
    await pause(PLY);
  }
  return undefined;
}

// ---- exercises

function exerciseParameters() {
  const parameters = Object.fromEntries(new FormData(at('exercise')));
  return { board: state.board, ...parameters };
}

async function setExercise(parameters) {
  stop();
  useBoard(parameters.board);
  Object.assign(state, { mode: 'find', exercise: null });
  for (const [name, value] of Object.entries(parameters)) {
    if (at('exercise').elements[name]) at('exercise').elements[name].value = value;
  }
  show();
  const arrival = ++arrivals;
  const report = (part) => {
    if (arrival === arrivals) at('note').textContent = `Looking: ${Math.round(100 * part)} %`;
    return arrival === arrivals;
  };
  const answer = await answered(askExercise(parameters, report));
  if (arrival !== arrivals) return;
  if (answer.fault || answer.text === null) {
    const error = `No position of ${parameters.pair} is like that.`;
    Object.assign(state, { fault: answer.fault ?? { error }, answer: null });
    show();
    return;
  }
  state.exercise = exercises.begun(parameters, answer);
  state.line = states.begin({ text: answer.text, mover: 'white' });
  await arrive();
}

async function goOn(move) {
  state.line = states.advance(state.line, move);
  if (!await arrive() || !state.exercise || !state.answer) return;
  state.exercise = exercises.reached(state.exercise, state.answer, current(state.line).mover);
  show();
}

/** Plays the best move of the other side. */
async function reply() {
  const arrival = arrivals;
  await pause(PLY);
  const { exercise } = state;
  if (arrival !== arrivals || !exercise || exercise.isOver) return;
  const best = state.answer?.moves.find((move) => move.best);
  if (best) await goOn(best);
}

async function playExercise(move) {
  state.exercise = exercises.judged(state.exercise, state.line.at, state.answer, move);
  await goOn(move);
  if (state.exercise && !state.exercise.waits) await reply();
}

function playOn() {
  if (!state.exercise?.waits) return undefined;
  state.exercise = { ...state.exercise, waits: false };
  show();
  return reply();
}

function reveal() {
  state.exercise = { ...state.exercise, isRevealed: true };
  show();
}

// ---- pairs

function fillPairs() {
  const pairs = state.served.boards[state.board].map((it) => it.pair);
  for (const select of [at('exercise').elements.pair, at('pairs')]) {
    const chosen = select.value;
    select.replaceChildren(...pairs.map((pair) => element('option', {}, pair)));
    if (pairs.includes(chosen)) select.value = chosen;
    else if (pairs.length) select.value = pairs[pairs.length - 1];
  }
}

/** Shows how far a count is, which is no longer wanted where another page came. */
function showProgress(name, part) {
  if (pairShown() !== name) return false;
  at('counting').textContent = part < 1 ? `Counting: ${Math.round(100 * part)} %` : '';
  at('progress').hidden = part >= 1;
  at('progress').value = part;
  return true;
}

/** The name of the pair that is to be on the page. */
const pairShown = () =>
  state.mode === 'pair' ? `${state.board}/pair/${at('pairs').value}` : null;

async function showPair(board, pair) {
  stop();
  arrivals += 1;
  useBoard(board);
  Object.assign(state, { mode: 'pair', exercise: null });
  show();
  if (pair) at('pairs').value = pair;
  const chosen = at('pairs').value;
  at('sides').replaceChildren();
  document.body.dataset.shown = '';
  at('counting').textContent = chosen ? '' : 'There is no such table.';
  if (chosen) await showNumbers(board, chosen);
}

async function showNumbers(board, pair) {
  const name = pairShown();
  history.replaceState(null, '', states.addressOfPair(board, pair));
  const report = (part) => showProgress(name, part);
  const answer = await answered(askCounts(board, pair, report));
  if (pairShown() !== name) return;
  at('progress').hidden = true;
  if (answer.fault) {
    at('counting').textContent = answer.fault.error;
    return;
  }
  showCounts(at('sides'), board, answer);
  document.body.dataset.shown = name;
}

// ---- what is pressed

function use(mode) {
  if (mode === 'pair') return showPair(state.board, '');
  stop();
  Object.assign(state, { mode, exercise: null });
  return arrive();
}

function useAddress() {
  const found = states.readAddress(location.hash);
  if (found?.exercise) return setExercise(found.exercise);
  if (found?.pair) return showPair(found.board, found.pair);
  if (found?.position) return setPosition(found.board, found.position, 'play');
  const isWrong = location.hash.length > 1;
  const set = setFirst(state.board);
  return isWrong ? set.then(() => showNote('The address has no position of a board.')) : set;
}

function onKey(event) {
  if (event.key === 'Escape') return letGo();
  const place = view.points.indexOf(document.activeElement);
  if (state.mode !== 'setup' || place < 0 || event.ctrlKey || event.metaKey) return undefined;
  const side = { w: 'white', b: 'black', Delete: null, Backspace: null }[event.key];
  if (side === undefined) return undefined;
  event.preventDefault();
  const position = states.withStone(current(state.line), place, side);
  return setPosition(state.board, position);
}

function onPaste(event) {
  const text = event.clipboardData.getData('text');
  if (event.target.tagName === 'INPUT' && event.target.id !== 'text') return;
  event.preventDefault();
  at('text').blur();
  take(text);
}

const onClick = (id, call) => at(id).addEventListener('click', call);

function listenToPlay() {
  onClick('start', () => go(0));
  onClick('back', () => go(state.line.at - 1));
  onClick('forward', () => go(state.line.at + 1));
  onClick('best', runBest);
  at('numbers').addEventListener('change', () =>
    at('board').classList.toggle('numberless', !at('numbers').checked));
  at('text').addEventListener('change', () => take(at('text').value));
}

function listenToSetUp() {
  const change = (position) => setPosition(state.board, position);
  onClick('swap', () => change(states.withColoursSwapped(current(state.line))));
  onClick('clear', () => change(emptyOf(state.board)));
  for (const it of document.querySelectorAll('[name=mover]')) {
    it.addEventListener('change', () => change(states.withMover(current(state.line), it.value)));
  }
}

function listenToExercise() {
  onClick('again', () => go(state.line.at - 1));
  onClick('on', playOn);
  onClick('reveal', reveal);
  onClick('another', () => {
    at('exercise').elements.seed.value = Math.floor(1e6 * Math.random());
    setExercise(exerciseParameters());
  });
  at('exercise').addEventListener('submit', (event) => {
    event.preventDefault();
    setExercise(exerciseParameters());
  });
}

function listen() {
  listenToPlay();
  listenToSetUp();
  listenToExercise();
  for (const it of document.querySelectorAll('[data-to]')) {
    it.addEventListener('click', () => use(it.dataset.to));
  }
  at('boards').addEventListener('change', () => {
    if (state.mode === 'pair') showPair(at('boards').value, '');
    else setFirst(at('boards').value);
  });
  at('pairs').addEventListener('change', () => showPair(state.board, ''));
  document.addEventListener('keydown', onKey);
  document.addEventListener('paste', onPaste);
  addEventListener('hashchange', useAddress);
}

async function start() {
  try {
    state.served = await askPairs();
  } catch (error) {
    at('note').textContent = error.message;
    return;
  }
  useBoard(state.served.board);
  listen();
  await useAddress();
}

start();
