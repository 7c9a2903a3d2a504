"""The game and the formats of its files once more, by docs/FILE_FORMAT.md and the rules alone.

Scripts compare what the program answers with what this file gives. It plays slowly, and shares
nothing with the program.
"""

import functools
import hashlib
import struct
from collections import Counter
from itertools import combinations
from math import comb

MOST_FILES = 64
VERSIONS = (1, 2)


class Board:
    """A board: its points, which of them are adjacent, its mills, and where each symmetry takes a
    point."""

    def __init__(self, number, points, adjacent, mills, symmetries):
        self.number = number
        self.points = range(points)
        self.neighbours = [
            [q for q in self.points if (p, q) in adjacent or (q, p) in adjacent]
            for p in self.points
        ]
        self.mills = mills
        self.symmetries = symmetries

    def led(self, position):
        """The image of a position by the first symmetry that takes the points of the player to move
        to the image with the least mask."""
        own, other = position
        images = [sum(1 << image[p] for p in own) for image in self.symmetries]
        image = self.symmetries[images.index(min(images))]
        return frozenset(image[p] for p in own), frozenset(image[p] for p in other)

    @functools.cache
    def representatives(self, count):
        """The number of each set of so many points that no symmetry takes to a lesser mask, by its
        mask and in the order of the masks."""
        images = [[1 << it for it in image] for image in self.symmetries]
        least = []
        for points in combinations(self.points, count):
            mask = sum(1 << it for it in points)
            if all(sum(map(image.__getitem__, points)) >= mask for image in images):
                least.append(mask)
        return {mask: number for number, mask in enumerate(sorted(least))}

    def stands_in_mill(self, point, stones):
        return any(point in mill and mill <= stones for mill in self.mills)

    def moves(self, own, other):
        """The legal moves with their results, in order of from, to and taken."""
        found = []
        if len(own) < 3:
            return found
        for start in sorted(own):
            for end in self.points if len(own) == 3 else self.neighbours[start]:
                if end in own or end in other:
                    continue
                moved = own - {start} | {end}
                if not self.stands_in_mill(end, moved):
                    found.append((f"{start}-{end}", (other, moved)))
                    continue
                free = [it for it in sorted(other) if not self.stands_in_mill(it, other)]
                for taken in free or sorted(other):
                    found.append((f"{start}-{end}x{taken}", (other - {taken}, moved)))
        return found


def grid_board():
    """Three rows and three columns, of which each is a mill."""
    lines = [[3 * i + j for j in range(3)] for i in range(3)]
    lines += [[3 * j + i for j in range(3)] for i in range(3)]
    adjacent = {pair for line in lines for pair in zip(line, line[1:])}
    symmetries = [[grid_image(it, *divmod(p, 3)) for p in range(9)] for it in range(8)]
    return Board(1, 9, adjacent, [set(line) for line in lines], symmetries)


def grid_image(symmetry, row, column):
    """The mirror in the diagonal comes first, and then the quarters of a turn."""
    if symmetry >= 4:
        row, column = column, row
    for _ in range(symmetry % 4):
        row, column = column, 2 - row
    return 3 * row + column


def nine_board():
    """Three rings of eight points, whose midpoints of sides are joined; each side is a mill."""
    sides = [[8 * r + (k + i) % 8 for i in range(3)] for r in range(3) for k in (0, 2, 4, 6)]
    lines = sides + [[k, 8 + k, 16 + k] for k in (1, 3, 5, 7)]
    adjacent = {pair for line in lines for pair in zip(line, line[1:])}
    symmetries = [[nine_image(it, *divmod(p, 8)) for p in range(24)] for it in range(16)]
    return Board(0, 24, adjacent, [set(line) for line in lines], symmetries)


def nine_image(symmetry, ring, place):
    """Four turns, four mirrors, and the same with the inner and the outer ring exchanged."""
    turned = 2 * (symmetry % 4) + (-place if symmetry // 4 % 2 else place)
    return 8 * (2 - ring if symmetry >= 8 else ring) + turned % 8


GRID = grid_board()
NINE = nine_board()
BOARDS = {"grid": GRID, "nine": NINE}
# All pairs of the board grid.
GRID_PAIRS = [(3, 3), (4, 3), (4, 4), (5, 3), (5, 4), (6, 3)]


def name_of(pair):
    return f"{pair[0]}-{pair[1]}"


def halves(pair):
    return [pair] if pair[0] == pair[1] else [pair, pair[::-1]]


def ranked(points, count):
    """The sets of so many of these points, in the order of their masks."""
    return sorted(combinations(points, count), key=lambda it: sum(1 << p for p in it))


def positions(pair):
    """The positions of a pair of the board grid in the order of the numbering."""
    for own_count, other_count in halves(pair):
        for own in ranked(GRID.points, own_count):
            rest = [it for it in GRID.points if it not in own]
            for other in ranked(rest, other_count):
                yield frozenset(own), frozenset(other)


def position_at(pair, index, board):
    """The position of a pair that has this index."""
    points = len(board.points)
    for own_count, other_count in halves(pair):
        beside = comb(points - own_count, other_count)
        size = comb(points, own_count) * beside
        if index < size:
            own = ranked(board.points, own_count)[index // beside]
            rest = [it for it in board.points if it not in own]
            return frozenset(own), frozenset(ranked(rest, other_count)[index % beside])
        index -= size


def code_from(codes):
    """The code of a position by those of its results, 0 for a draw, else its plies and 1."""
    lost = [it for it in codes if it % 2]
    if lost:
        return min(lost) + 1
    return 0 if 0 in codes else max(codes, default=0) + 1


def entries(pair, version):
    """The positions that have an entry in a file of a pair of the board grid, in order. In version
    2 these are the ones that are led to themselves."""
    found = positions(pair)
    return list(found if version == 1 else (it for it in found if GRID.led(it)[0] == it[0]))


class Game:
    """The codes of all positions of some pairs of the board grid, and those of the entries of files
    by pair and version."""

    def __init__(self, pairs):
        self.codes = {}
        self.listed = {}
        for pair in pairs:
            self.solve(pair)

    def solve(self, pair):
        left = {it: [to for _, to in GRID.moves(*it)] for it in positions(pair)}
        # No result is decided later than this, and so nothing is once two depths found nothing.
        code, latest = 0, max(self.codes.values(), default=0)
        while code <= latest + 2:
            code += 1
            decided = [it for it, results in left.items() if self.is_decided(results, code)]
            for it in decided:
                self.codes[it], latest = code, code
                del left[it]
        self.codes.update(dict.fromkeys(left, 0))
        for version in VERSIONS:
            self.listed[pair, version] = [self.codes[it] for it in entries(pair, version)]

    def is_decided(self, results, code):
        """Whether a position has this code by those of its results, of which lesser ones are known:
        an even one by a result that is lost, an odd one where each result is won by now."""
        codes = [1 if len(it[0]) < 3 else self.codes.get(it, 0) for it in results]
        won = code % 2 and all(it and it % 2 == 0 and it < code for it in codes)
        return won or (code % 2 == 0 and code - 1 in codes)

    def code(self, position):
        return 1 if len(position[0]) < 3 else self.codes[position]


@functools.cache
def solved():
    """All pairs of the board grid, which a process solves once."""
    return Game(GRID_PAIRS)


def needs(pair):
    greater, lesser = pair
    found = [(greater, lesser - 1)] if lesser > 3 else []
    return found + ([(greater - 1, lesser)] if greater > lesser else [])


def below(pair):
    found = [(a, b) for a in range(3, pair[0] + 1) for b in range(3, min(a, pair[1]) + 1)]
    return sorted(found, key=lambda it: (sum(it), it[0]))


def size_of(pair, version, board):
    """How many entries a file of a pair has. In version 2 there is one for each class of sets of
    the player to move and each set of the opponent beside it."""
    points = len(board.points)
    sets = lambda own: comb(points, own) if version == 1 else len(board.representatives(own))
    return sum(sets(own) * comb(points - own, other) for own, other in halves(pair))


def file_of(pair, version, codes):
    head = b"NMMT" + bytes([version, GRID.number, *pair]) + struct.pack(">Q", len(codes))
    return sealed(head + struct.pack(f">{len(codes)}H", *codes))


def sealed(content):
    return content + hashlib.sha256(content).digest()


class Refused(Exception):
    """A fault by its text, and what was told before it."""

    def __init__(self, text, told=""):
        super().__init__(text)
        self.told = told


def fault(text, told=""):
    """Refuses with this text, after what was told before."""
    raise Refused(text, told)


def read_file(data, board):
    """The pair, the version and the codes of the file that these bytes begin with, and the bytes
    after it."""
    if len(data) < 16:
        fault("15: file is too short")
    if data[:4] != b"NMMT":
        fault("16: not a table file")
    version = data[4]
    if version not in VERSIONS:
        fault("17: unknown version")
    if data[5] != board.number:
        fault("18: another board")
    pair = (data[6], data[7])
    if not 3 <= pair[1] <= pair[0] <= 9:
        fault("4: bad counts")
    if sum(pair) > len(board.points):
        fault("5: more stones than points")
    count = struct.unpack(">Q", data[8:16])[0]
    if count != size_of(pair, version, board):
        fault("19: wrong number of entries")
    end = 16 + 2 * count
    if len(data) < end + 32:
        fault("15: file is too short")
    if hashlib.sha256(data[:end]).digest() != data[end : end + 32]:
        fault("20: digest is wrong")
    return pair, version, struct.unpack(f">{count}H", data[16:end]), data[end + 32 :]


@functools.cache
def order_of(pair, version):
    """The positions of the entries, each with its results, and each result with the position whose
    entry tells its value, if it is of this pair."""
    led = GRID.led if version == 2 else lambda it: it
    return [(it, [(to, led(to)) for _, to in GRID.moves(*it)]) for it in entries(pair, version)]


def check_codes(pair, version, codes, game, where=""):
    """Refuses a table at the first entry that isn't what the entries of its results give."""
    if list(codes) == game.listed[pair, version]:
        return
    order = order_of(pair, version)
    stated = {node: code for (node, _), code in zip(order, codes)}
    for i, (_, results) in enumerate(order):
        of_results = [stated[led] if led in stated else game.code(it) for it, led in results]
        if code_from(of_results) != codes[i]:
            fault(f"14: entry {i} differs{where}")


def in_words(code):
    return "draw" if code == 0 else f"{'lost' if code % 2 else 'won'} in {code - 1}"


def read_text(text, board):
    """The position that a text of the command line shows, or the bytes of a line."""
    data = text if isinstance(text, bytes) else text.encode()
    if len(data) != len(board.points):
        fault("1: text is not one character per point")
    for place, byte in enumerate(data):
        if byte not in b"XO.":
            fault(f"2: bad character at {place}")
    own = frozenset(i for i, it in enumerate(data) if it == ord("X"))
    other = frozenset(i for i, it in enumerate(data) if it == ord("O"))
    if not 2 <= len(own) <= 9 or not 3 <= len(other) <= 9:
        fault("3: bad number of stones")
    return own, other


def read_pair(text, board):
    data = text.encode()
    if len(data) != 3 or data[1:2] != b"-" or not (data[:1] + data[2:]).isdigit():
        fault("26: not a pair")
    counts = (data[0] - 48, data[2] - 48)
    if not all(3 <= it <= 9 for it in counts):
        fault("4: bad counts")
    if sum(counts) > len(board.points):
        fault("5: more stones than points")
    return max(counts), min(counts)


def verify(game, board, given):
    pair, version, codes, rest = read_file(given, board)
    if rest:
        fault("21: bytes after the table")
    check_codes(pair, version, codes, game)
    return verified(pair, codes)


def verified(pair, codes):
    return f"verified {pair[0]}-{pair[1]}: {len(codes)} entries\n"


def verify_all(game, board, given):
    """Verifies files one after the other. At a file's turn those tables are kept whose pairs have
    at most one stone less than its own."""
    stock, files, told = set(), 0, ""
    while given:
        try:
            pair, version, codes, given = read_file(given, board)
            files += 1
            if files > MOST_FILES:
                fault("27: more than 64 tables")
            stock = {it for it in stock if sum(it) + 1 >= sum(pair)}
            check_table(pair, version, codes, game, stock, f", in the file of {pair[0]}-{pair[1]}")
        except Refused as refused:
            fault(str(refused), told)
        stock.add(pair)
        told += verified(pair, codes)
    if not files:
        fault("32: no table files")
    return told


def check_table(pair, version, codes, game, known, where=""):
    """Refuses a table that needs one of another pair than those that are known, or whose codes are
    wrong."""
    for need in needs(pair):
        if need not in known:
            fault(f"13: needs {need[0]}-{need[1]}{where}")
    check_codes(pair, version, codes, game, where)


def probe(game, board, text, given):
    own, other = read_text(text, board)
    shelf, files = set(), 0
    while given:
        pair, version, codes, given = read_file(given, board)
        files += 1
        if files > MOST_FILES:
            fault("27: more than 64 tables")
        check_table(pair, version, codes, game, shelf)
        shelf.add(pair)
    counts = tuple(sorted((len(own), len(other)), reverse=True))
    if len(own) > 2 and counts not in shelf:
        fault(f"13: needs {counts[0]}-{counts[1]}")
    code = game.code((own, other))
    lines = [text, in_words(code)]
    for move, result in board.moves(own, other):
        if code != 1 and game.code(result) == (code - 1 if code else 0):
            lines.append(move)
    return "".join(f"{it}\n" for it in lines)


def decided(board, position, plies):
    """The code of a position if it is decided within so many plies, else 0."""
    results = [result for _, result in board.moves(*position)]
    if not results or plies == 0:
        return 0 if results else 1
    code = code_from([decided(board, it, plies - 1) for it in results])
    return code if code <= plies + 1 else 0


def look(game, board, text, depth):
    own, other = read_text(text, board)
    legal = [move for move, _ in board.moves(own, other)]
    code = game.code((own, other)) if board is GRID else decided(board, (own, other), depth)
    value = in_words(code) if 0 < code <= depth + 1 else f"unknown within {depth}"
    counts = f"own {len(own)} other {len(other)}"
    return "".join(f"{it}\n" for it in [text, counts, *legal, f"moves {len(legal)}", value])


def stats(game, board, text):
    pair = read_pair(text, board)
    codes = game.listed[pair, 1]
    lines = [f"{pair[0]}-{pair[1]} {len(codes)} positions"]
    for code in range(1, max(codes) + 1):
        if code in codes:
            lines.append(f"{in_words(code)}: {codes.count(code)}")
    return "".join(f"{it}\n" for it in [*lines, f"draw: {codes.count(0)}"])


def csv(game, board, text):
    """Lines of fields with commas between them: by the stones of the player to move, then draws,
    wins and losses, each by their depth."""
    pair = read_pair(text, board)
    numbers = ((len(own), len(other)) for own, other in positions(pair))
    counted = Counter(zip(numbers, game.listed[pair, 1]))
    lines = ["own,other,result,depth,positions"]
    for (own, other), code in sorted(counted, key=lambda it: (it[0], it[1] > 0, it[1] % 2, it[1])):
        result, _, depth = in_words(code).partition(" in ")
        lines.append(f"{own},{other},{result},{depth},{counted[(own, other), code]}")
    return "".join(f"{it}\n" for it in lines)


def sharing(position, board):
    """The positions that are led to this one, in the order of the symmetries that lead them."""
    for number, image in enumerate(board.symmetries):
        back = {image[p]: p for p in board.points}
        came = tuple(frozenset(back[p] for p in side) for side in position)
        images = [sum(1 << it[p] for p in came[0]) for it in board.symmetries]
        if images.index(min(images)) == number:
            yield came


def values_asked(codes, value):
    """The values that are looked for, one after the other."""
    if value != "deepest":
        return [value]
    greatest = (max((it for it in codes if it and it % 2 == odd), default=0) for odd in (0, 1))
    return [in_words(it) for it in greatest if it]


def find(codes, nodes, board, value, every):
    """The texts of the positions of these entries that have a value, in order; with `every` of all
    that share an entry."""
    for asked in values_asked(codes, value):
        for code, node in zip(codes, nodes):
            if asked in (in_words(code), in_words(code).split(" ")[0]):
                for it in sharing(node, board) if every else [node]:
                    yield text_of(it, board)


def text_of(position, board):
    own, other = position
    return "".join("X" if it in own else "O" if it in other else "." for it in board.points)


def deepest_of(codes, position, board):
    """The lines of a deepest win and a deepest loss among the entries with these codes: the first
    one of several. `position` gives the position of an entry."""
    lines = []
    for name, odd in (("win", 0), ("loss", 1)):
        text, code = "none", max((it for it in codes if it and it % 2 == odd), default=0)
        if code:
            text = f"{text_of(position(codes.index(code)), board)} {in_words(code)}"
        lines.append(f"deepest {name}: {text}\n")
    return "".join(lines)


def deepest(game, pair, version):
    """These lines of a pair of the board grid, by the entries of a file of this version."""
    return deepest_of(game.listed[pair, version], entries(pair, version).__getitem__, GRID)


def build(game, board, text, every, version):
    pair = read_pair(text, board)
    pairs = below(pair) if every else [pair]
    return b"".join(file_of(it, version, game.listed[it, version]) for it in pairs)


def answer_of(made):
    """Status, output and errors of what a made function gives."""
    try:
        text = made()
    except Refused as refused:
        return 1, refused.told.encode(), f"fault {refused}\n".encode()
    return 0, text if isinstance(text, bytes) else text.encode(), b""
