// The boards: where their points stand, and which lines are drawn between them.

// The places of a ring, clockwise from the top left corner, seen from its centre.
const RING = [[-1, -1], [0, -1], [1, -1], [1, 0], [1, 1], [0, 1], [-1, 1], [-1, 0]];

function nine() {
  const points = [3, 2, 1].flatMap((half) => RING.map(([x, y]) => [3 + half * x, 3 + half * y]));
  const sides = [0, 8, 16].flatMap((ring) =>
    [0, 2, 4, 6].map((place) => [ring + place, ring + (place + 2) % 8]));
  const spokes = [1, 3, 5, 7].map((place) => [place, 16 + place]);
  return { name: 'nine', points, lines: [...sides, ...spokes], size: 6 };
}

function grid() {
  const points = Array.from({ length: 9 }, (_, p) => [1.5 * (p % 3), 1.5 * Math.floor(p / 3)]);
  const lines = [0, 1, 2].flatMap((k) => [[3 * k, 3 * k + 2], [k, k + 6]]);
  return { name: 'grid', points, lines, size: 3 };
}

export const BOARDS = { nine: nine(), grid: grid() };

/** The board whose positions have texts of this length, if any. */
export function boardOfLength(length) {
  return Object.values(BOARDS).find((board) => board.points.length === length);
}

/** The point that an arrow key leads to: the nearest one that way, those of the same line first. */
export function pointToward(board, from, [dx, dy]) {
  const [x0, y0] = board.points[from];
  let nearest = from;
  let least = Infinity;
  board.points.forEach(([x, y], point) => {
    const ahead = (x - x0) * dx + (y - y0) * dy;
    const aside = Math.abs((x - x0) * dy) + Math.abs((y - y0) * dx);
    if (ahead > 0 && ahead + 3 * aside < least) {
      least = ahead + 3 * aside;
      nearest = point;
    }
  });
  return nearest;
}
