"""Draws docs/pairs.svg, for gate/generated.py, from what bench/pairs put into docs/nine.csv: how
many positions of each pair are won, drawn and lost for the player to move, and the greatest depth.
"""

import csv

# The numbers of stones of a player in a pair.
STONES = range(3, 10)
WIDTH, HEIGHT = 106, 62
LEFT, TOP, MARGIN = 34, 64, 8
BAR = WIDTH - 2 * MARGIN
# Told apart by those who see no red or green, and in print.
COLOURS = {"won": "#0072b2", "drawn": "#c9ccd1", "lost": "#d55e00"}


def text(x, y, words, size, more=""):
    return f'<text x="{x}" y="{y}" font-size="{size}"{more}>{words}</text>'


def box(x, y, width, height, colour):
    return f'<rect x="{x:g}" y="{y:g}" width="{width:g}" height="{height:g}" fill="{colour}"/>'


def bar(x, y, row):
    """A bar of the shares of a pair's positions."""
    counts = {it: int(row[it]) for it in COLOURS}
    for kind, count in counts.items():
        width = round(BAR * count / sum(counts.values()), 1)
        if width:
            yield box(x, y, width, 14, COLOURS[kind])
        x = round(x + width, 1)


def cell(x, y, pair, row):
    """A pair's name, its greatest depth and its bar; its name alone if there is no row of it."""
    yield f'<rect x="{x}" y="{y}" width="{WIDTH}" height="{HEIGHT}" fill="none" stroke="#dddddd"/>'
    yield text(x + MARGIN, y + 24, pair, 15, ' font-weight="bold"')
    if row:
        deepest = max(int(row[it] or 0) for it in ("deepest win", "deepest loss"))
        end = x + WIDTH - MARGIN
        yield text(end, y + 24, f"{deepest} plies", 13, ' text-anchor="end"')
        yield from bar(x + MARGIN, y + 36, row)


def legend(y):
    """What the colours mean."""
    x = LEFT
    for kind, colour in COLOURS.items():
        yield box(x, y - 11, 12, 12, colour)
        yield text(x + 18, y, kind, 13)
        x += 76
    yield text(x, y, "for the player to move; number: the greatest depth of a win or a loss", 13)


def picture(lines):
    """The picture of the pairs in docs/nine.csv, as the lines of an SVG file."""
    rows = {row["pair"]: row for row in csv.DictReader(lines)}
    across, down = LEFT + len(STONES) * WIDTH + MARGIN, TOP + len(STONES) * HEIGHT + MARGIN
    made = [
        f'<svg xmlns="http://www.w3.org/2000/svg" viewBox="0 0 {across} {down}" '
        f'width="{across}" height="{down}" font-family="sans-serif" fill="#222222">',
        "<title>Values of all pairs of Nine Men's Morris</title>",
        box(0, 0, across, down, "#ffffff"),
        *legend(24),
    ]
    for place, stones in enumerate(STONES):
        middle = ' text-anchor="middle"'
        made.append(text(LEFT + place * WIDTH + WIDTH // 2, TOP - 10, stones, 13, middle))
        made.append(text(LEFT // 2, TOP + place * HEIGHT + HEIGHT // 2 + 5, stones, 13, middle))
        for column, fewer in enumerate(range(STONES[0], stones + 1)):
            pair = f"{stones}-{fewer}"
            made += cell(LEFT + column * WIDTH, TOP + place * HEIGHT, pair, rows.get(pair))
    return [*made, "</svg>"]
