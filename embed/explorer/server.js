// What the server is asked.

const MOST_CACHED = 500;
const cache = new Map();

/** A request was refused: `answer` says why. */
export class Refused extends Error {
  constructor(answer) {
    super(answer.error);
    this.answer = answer;
  }
}

async function fetched(address) {
  try {
    return await fetch(address);
  } catch {
    throw new Refused({ error: 'The explorer doesn\u2019t answer. Does it still run?' });
  }
}

export async function ask(path, parameters = {}) {
  const query = new URLSearchParams(parameters).toString();
  const response = await fetched(query ? `${path}?${query}` : path);
  const answer = await response.json();
  if (!response.ok) throw new Refused(answer);
  return answer;
}

export const askPairs = () => ask('/api/pairs');

/** The value of a position with its moves. What was answered before isn't asked again. */
export async function askPosition(board, text) {
  const name = `${board}/${text}`;
  if (!cache.has(name)) {
    const answer = await ask('/api/position', { board, text });
    if (cache.size >= MOST_CACHED) cache.delete(cache.keys().next().value);
    cache.set(name, answer);
  }
  return cache.get(name);
}

/** A position of an exercise, or one whose text is null where there is none. `report` is called
 * with how far the search is, and says whether it is still wanted. */
export async function askExercise(parameters, report) {
  let answer = { searched: 0 };
  do {
    answer = await ask('/api/find', { ...parameters, searched: answer.searched });
  } while (report(answer.searched / answer.entries) && !answer.done);
  return answer;
}

const pause = (milliseconds) => new Promise((done) => setTimeout(done, milliseconds));

/** How many positions of a pair there are of each value. `report` is called with how far the count
 * is, and says whether it is still wanted. */
export async function askCounts(board, pair, report) {
  for (;;) {
    const answer = await ask('/api/counts', { board, pair });
    if (!report(answer.counted / answer.entries) || answer.done) return answer;
    await pause(300);
  }
}
