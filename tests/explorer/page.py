"""Does in a headless Chromium what a person does on the explorer's page, and compares what it then
shows with what `morris lookup` and `morris stats` print."""

import functools
import os
import shutil
import sys
import unittest
from collections import Counter

from tests.embed.common import all_of_grid, made_up
from tests.explorer.common import PAIRS, Explored, fields, points_of
from tests.lib.program import count
from tests.lib.steps import missing

# (Debian's package has Selenium here, whichever Python runs this)
sys.path.append("/usr/lib/python3/dist-packages")
try:
    from selenium import webdriver
    from selenium.webdriver.chrome.service import Service
    from selenium.webdriver.common.keys import Keys
    from selenium.webdriver.support.wait import WebDriverWait
except ImportError:
    webdriver = None

# A page may change its address as often as it likes.
ARGUMENTS = ["--headless=new", "--disable-gpu", "--disable-dev-shm-usage", "--no-first-run"]
ARGUMENTS += ["--disable-background-networking", "--disable-component-update", "--no-proxy-server"]
ARGUMENTS += ["--disable-ipc-flooding-protection"] + ["--no-sandbox"] * (os.geteuid() == 0)
# How many seconds something is waited for, and how many are between two looks at it.
MOST_OF_A_WAIT, BETWEEN = 20, 0.02

# How many positions of each board are shown, and by how many stones.
ASKED = 200
STONES = ((3, 3), (4, 3), (3, 4), (4, 4))
# Won in 9 plies.
LONG = "OXO.OXO.XX.............."
COUNTS = "[it.dataset.value, Number(it.querySelector('[data-count]').dataset.count)]"
MARK = "it.classList.contains('marked') ? it.querySelector('.mark').textContent : null"
NAME = """it.getAttribute('aria-label') || it.getAttribute('aria-labelledby')
    || it.textContent.trim() || it.labels?.length ? null : it.outerHTML"""
PASTE = """
    const data = new DataTransfer();
    data.setData('text', arguments[0]);
    const how = {clipboardData: data, bubbles: true, cancelable: true};
    document.body.dispatchEvent(new ClipboardEvent('paste', how));
"""
SHOWN = "const it = document.body.dataset.shown; "
MOVE = "[data-move='{}']"
SIGNS = {"won": "+", "draw": "=", "lost": "\u2212"}


def in_plies(value):
    """A value of `morris lookup` as the list of moves has it."""
    return value if value == "draw" else f"{value} {'ply' if value.endswith(' 1') else 'plies'}"


def headline(value, mover):
    """How the page begins to say a value of `morris lookup`."""
    result, depth = fields(value)
    if result == "draw":
        return "Draw"
    winner = ("White", "Black")[(result == "won") != (mover == "white")]
    return winner + (f" wins {in_plies(value).split(' ', 1)[1]}" if depth else " has won")


def worth(value):
    """A number by which values are ordered for the player to move."""
    result, depth = fields(value)
    return {"won": 1, "draw": 0, "lost": -1}[result] / (1 + (depth or 0))


def marks_of(values, place):
    """What stands on the board for values of moves, by the points at a place of their names."""
    found = {points_of(move)[place]: fields(value) for move, value in values.items()}
    return {it: SIGNS[result] + str(depth or "") for it, (result, depth) in found.items()}


@functools.cache
def opened():
    """The browser, which ends with the suite."""
    options = webdriver.ChromeOptions()
    options.binary_location = shutil.which("chromium")
    options.set_capability("goog:loggingPrefs", {"browser": "ALL"})
    options.ignore_local_proxy_environment_variables()
    for it in ARGUMENTS:
        options.add_argument(it)
    browser = webdriver.Chrome(service=Service(shutil.which("chromedriver")), options=options)
    unittest.addModuleCleanup(browser.quit)
    return browser


class Page(Explored):
    """A test case of the page, which is opened anew for each test."""

    def setUp(self):
        if lacking := missing("chromium", "chromedriver") if webdriver else "Selenium for Python":
            self.skipTest(lacking)
        super().setUp()
        self.browser = opened()
        self.run_script = self.browser.execute_script
        self.browser.get("about:blank")
        self.errors()
        self.emulate(width=1200)
        self.browser.get(self.server.url)
        self.addCleanup(lambda: self.assertEqual(self.errors(), []))

    def errors(self):
        """What the console has had of errors since it was asked before."""
        return [it for it in self.browser.get_log("browser") if it["level"] == "SEVERE"]

    def emulate(self, width, media=""):
        """Shows the page as in a window of this width, or for a medium such as `print`."""
        size = {"width": width, "height": 900, "deviceScaleFactor": 1, "mobile": False}
        self.browser.execute_cdp_cmd("Emulation.setDeviceMetricsOverride", size)
        self.browser.execute_cdp_cmd("Emulation.setEmulatedMedia", {"media": media})

    # ---- what is on the page

    def wait(self, what, script, *words):
        """Waits until a script returns something that is true, and gives it."""
        found = lambda browser: browser.execute_script(script, *words)
        return WebDriverWait(self.browser, MOST_OF_A_WAIT, BETWEEN).until(found, what)

    def found(self, selector):
        return self.browser.find_element("css selector", selector)

    def each(self, selector, expression):
        """The value of an expression for each element `it`."""
        script = f"return [...document.querySelectorAll('{selector}')].map((it) => {expression});"
        return self.run_script(script)

    def text(self, selector):
        return self.each(selector, "it.textContent")[0]

    def has(self, selector, condition, *words):
        """Waits until the text `it` of an element is like that, and gives it."""
        script = f"const it = document.querySelector('{selector}').textContent; "
        script += f"return {condition} ? it || ' ' : null;"
        return self.wait(f"{selector}: {condition} {words}", script, *words)

    def notes(self, words):
        self.has("#note", "it.includes(arguments[0])", words)

    def listed(self):
        words = "it.querySelector('.words')?.textContent ?? null"
        return self.each("#moves button", f"[it.dataset.move, {words}]")

    def marks(self):
        """What is marked on the board, by points."""
        found = enumerate(self.each(".point", MARK))
        return {point: mark for point, mark in found if mark is not None}

    def shows(self, *parts):
        """Waits until the answer for a position, or the numbers of a pair, are on the page. Nothing
        is waited for without its name."""
        if parts:
            count()
            name = "/".join(parts if len(parts) > 2 else (*parts, "white"))
            self.wait(f"to show {name}", f"{SHOWN} return it === arguments[0];", name)

    def leaves(self, *parts):
        """Waits until the answer for another position is on the page."""
        script = f"{SHOWN} return it && it !== arguments[0];"
        self.wait(f"to leave {parts}", script, "/".join(parts))

    def place(self):
        """The board, text and side to move of the position that is on the page."""
        return self.wait("a position", f"{SHOWN} return it;").split("/")

    def looked(self, board, text):
        return self.looked_up(board, [text])[text]

    def check(self, board, text, mover="white", looked=None):
        """Waits for a position: the page shows its value and all its moves, best first."""
        self.shows(board, text, mover)
        looked, listed = looked or self.looked(board, text), self.listed()
        value = self.text("#value").partition(":")[0]
        self.assertEqual(value, headline(looked.value, mover), text)
        moves = sorted([move, in_plies(value)] for move, value in looked.moves.items())
        self.assertEqual(sorted(listed), moves, text)
        order = [worth(looked.moves[move]) for move, _ in listed]
        self.assertEqual(order, sorted(order, reverse=True), text)

    # ---- what is done there

    def go(self, address):
        """Changes what stands behind the page's address."""
        self.run_script("location.hash = arguments[0];", address)

    def visit(self, *parts):
        """Goes to a position, or to a pair, and waits until it is on the page."""
        self.go("#" + "/".join(parts))
        self.shows(*parts)

    def click(self, selector, *shown):
        """Clicks on an element, and waits for what is to be shown then, if that is given."""
        self.found(selector).click()
        self.shows(*shown)

    def keys(self, *keys, shown=()):
        """Presses keys one after the other, wherever the focus is, and waits in the same way."""
        webdriver.ActionChains(self.browser).send_keys(*keys).perform()
        self.shows(*shown)

    def press(self, *points):
        for point in points:
            self.click(f".point:nth-of-type({point + 1})")

    def choose(self, move):
        """Makes a move by clicks on the board, and looks at what is marked on the way."""
        start, end, taken = points_of(move)
        board, text, _ = self.place()
        moves = self.looked(board, text).moves
        self.press(start)
        ends = {points_of(it)[1] for it in moves if it.startswith(f"{start}-")}
        self.assertEqual(set(self.marks()), ends, text)
        self.press(end)
        if taken is not None:
            captures = {it: moves[it] for it in moves if it.startswith(f"{start}-{end}x")}
            self.assertEqual(self.marks(), marks_of(captures, 2), text)
            self.press(taken)

    def focus(self, selector):
        """Goes to an element by the tabulator alone."""
        for _ in range(200):
            self.keys(Keys.TAB)
            if self.run_script("return document.activeElement.matches(arguments[0]);", selector):
                return
        self.fail(f"the tabulator doesn't get to {selector}")

    def arrows(self, point, *keys):
        """Goes to a point of the board by arrows."""
        self.keys(*keys)
        focused = self.each(".point", "it === document.activeElement")
        self.assertEqual(focused.index(True), point)


class Positions(Page):
    """Positions on the page, how they get there, and what is played from them; and pairs."""

    def test_first_position(self):
        """Without an address, and with a wrong one, it is one of which there is a table."""
        self.check("nine", LONG)
        self.go("#nine/XXX")
        self.notes("no position")
        self.shows("nine", LONG)

    def test_positions_by_their_addresses(self):
        grid = sorted({*all_of_grid()[::17], *all_of_grid((4, 3))[::23]})[:ASKED]
        for board, texts in (("nine", made_up(ASKED, STONES, 62)), ("grid", grid)):
            looked = self.looked_up(board, texts)
            for place, text in enumerate(texts):
                parts = board, text, *["black"] * (place % 2)
                self.visit(*parts)
                self.check(*parts, looked=looked[text])

    def test_setting_up(self):
        """Stones are put, changed and taken by clicks, sides are swapped, and a text is pasted."""
        self.click("[data-to=setup]")
        self.click("#clear")
        self.press(1, 5, 3, 8, 9, 20)
        self.click("[name=tool][value=black]")
        # 3 was white and is black now, and 20 was changed and then taken.
        self.press(0, 2, 4, 6, 3, 20, 20)
        self.shows("nine", "OXOOOXO.XX..............")
        self.press(3)
        self.check("nine", LONG)
        self.click("[name=mover][value=black]")
        self.check("nine", LONG.translate(str.maketrans("XO", "OX")), "black")
        self.click("#swap", "nine", LONG, "black")
        text = "XX......OOO............X"
        self.run_script(PASTE, f" {text.lower()}\n")
        self.check("nine", text)
        self.run_script("document.querySelector('#text').select();")
        self.keys(*"XXX.OO.O.", Keys.ENTER, shown=("grid", "XXX.OO.O."))
        self.run_script("document.querySelector('#text').select();")
        self.keys(*"XXX.OO.", Keys.ENTER)
        self.notes("not 7")

    def test_playing(self):
        """Moves by clicks on the board, with a capture; back, forward and to the start; a move of
        the list, which the board shows when it is pointed at."""
        text = "XX.X.X..O.O.O.O........."
        self.visit("nine", text)
        capture = next(it for it in self.looked("nine", text).moves if "x" in it)
        self.choose(capture)
        self.assertEqual(self.has("#played", "it !== ''"), capture)
        second = self.place()
        self.assertEqual(second[2], "black")
        self.check(*second)
        self.click("#back", "nine", text)
        self.click("#forward", *second)
        first = self.listed()[0][0]
        listed = self.found(MOVE.format(first))
        webdriver.ActionChains(self.browser).move_to_element(listed).perform()
        self.wait("an arrow", "return document.querySelector('.arrow line') !== null;")
        listed.click()
        self.has("#played", "it.includes(' ')")
        self.click("#start", "nine", text)

    def test_best_line_to_the_end(self):
        """It is that of `morris lookup`; then back, and the same page from its address."""
        lines = self.shown(["lookup", "nine", "--from", self.folder, "--line", LONG]).splitlines()
        moves, texts = zip(*(line.split()[:2] for line in lines[1:]))
        self.visit("nine", LONG)
        self.click("#best", "nine", texts[-1], "black")
        self.has("#best", "it === 'Best line'")
        self.assertEqual(self.text("#played"), " ".join(moves))
        self.assertTrue(self.text("#value").startswith("White has won"))
        self.click("#back", "nine", texts[-2], "white")
        address = self.browser.current_url
        self.browser.refresh()
        self.check("nine", texts[-2], "white")
        self.assertEqual(self.browser.current_url, address)

    def test_best_line_of_a_draw(self):
        """It ends where a position repeats, or where it is stopped."""
        looked = self.looked_up("grid", all_of_grid())
        text = next(it for it in looked if looked[it].value == "draw")
        self.visit("grid", text)
        self.click("#best")
        self.has("#played", "it !== ''")
        self.click("#best")
        self.assertEqual(self.text("#best"), "Best line")
        self.click("#start", "grid", text)
        self.click("#best")
        self.notes("repeats")

    def test_missing_table(self):
        """The pair is named, and what makes it."""
        self.visit("nine", "XXXXX..OOOOO............")
        self.notes("There is no table of 5-5")
        command = f"./morris build nine 5-5 --classes --into {self.folder}"
        self.assertEqual(self.text("#command"), command)

    def test_numbers_of_pairs(self):
        """How many positions have each value; and the deepest ones, one click away."""
        for board, pair in ((board, pair) for board in PAIRS for pair in PAIRS[board]):
            with self.subTest(board, pair=pair):
                self.visit(board, "pair", pair)
                found, expected = Counter(), Counter()
                for value, many in self.each("#sides tr[data-value]", COUNTS):
                    found[value] += many
                for side in self.counted(board, pair).values():
                    expected.update(side)
                self.assertEqual(+found, expected)
                addresses = self.each(".deepest a", "it.getAttribute('href')")
                for address in addresses:
                    self.click(f".deepest a[href='{address}']")
                    self.check(board, address.split("/")[1])
                    self.visit(board, "pair", pair)
                texts = {address.split("/")[1] for address in addresses}
                self.assertLessEqual(set(self.deepest(board, pair)), texts)


class Exercises(Page):
    """Positions that are to be played, while their values are hidden."""

    def exercise(self, board, kind, *beginnings):
        """Goes to the first exercise of a kind, by its seed, in whose position there are moves with
        values that begin like that. Gives its text, its depth, and such moves with theirs."""
        pair, result, plies = kind.split("/")
        words = dict(zip(("least", "most"), plies.split("-")), pair=pair, result=result)
        for seed in range(1, 400):
            text = self.server.find(board=board, **words, seed=seed)["text"]
            looked = self.looked(board, text)
            values = {value: move for move, value in looked.moves.items()}
            first = [next((it for it in values if it.startswith(one)), None) for one in beginnings]
            if all(first):
                self.assertEqual(looked.value.split()[0], result)
                self.go(f"#{board}/find/{kind}/{seed}")
                self.shows(board, text)
                moves = [(values[it], fields(it)[1]) for it in first]
                return text, fields(looked.value)[1], moves
        self.fail(f"no exercise of {kind} has such moves")

    def hides(self, text):
        self.shows("nine", text)
        hidden = self.text("#value"), {words for _, words in self.listed()}
        self.assertEqual(hidden, ("", {None}))

    def play_best(self):
        """Makes the best move, or waits for that of the other side. Gives the value before."""
        board, text, mover = self.place()
        looked = self.looked(board, text)
        if mover == "white":
            self.click(MOVE.format(looked.best[0]))
        self.leaves(board, text, mover)
        return mover, looked.value

    def test_win(self):
        """It is the same from the same address; a wrong move and a slow one are taken back; and
        right ones lead to the end."""
        text, depth, moves = self.exercise("nine", "4-3/won/5-19", ("draw", "lost"), "won in 2")
        self.assertIn(depth, range(5, 20))
        self.hides(text)
        self.browser.refresh()
        self.hides(text)
        (wrong, _), (slow, slower) = moves
        self.choose(wrong)
        self.notes("The win is gone")
        self.click("#again")
        self.hides(text)
        self.click(MOVE.format(slow))
        self.notes(f"{slower - depth} plies more than needed")
        self.click("#back", "nine", text)
        for _ in range(60):
            mover, value = self.play_best()
            if value == "won in 1":
                self.notes("You have won")
                return self.notes("none was better")
            if mover == "white":
                self.notes("no move is better")
        self.fail("an exercise that doesn't end")

    def test_loss(self):
        soon = ("lost in 4", "lost in 6", "lost in 8")
        _, depth, [(fast, sooner)] = self.exercise("nine", "3-3/lost/10-26", soon)
        task = "White loses against best play. Hold out as long as you can."
        self.assertEqual(self.text("#task"), task)
        self.click(MOVE.format(fast))
        self.notes(f"{depth - sooner} plies sooner than needed")

    def test_draw(self):
        """One that is given away, after its values were shown; and one that is held until a
        position comes again."""
        text, _, [(bad, _)] = self.exercise("grid", "4-3/draw/1-9", "lost")
        self.click("#reveal")
        self.check("grid", text)
        self.click(MOVE.format(bad))
        self.notes("The draw is gone")
        self.click("#on")
        self.has("#played", "it.includes(' ')")
        self.exercise("grid", "3-3/draw/1-9", "lost")
        for _ in range(40):
            if "repeats" in self.text("#note"):
                return self.notes("a draw")
            self.play_best()
        self.fail("a draw that doesn't end")

    def test_no_such_position(self):
        self.go("#grid/find/4-3/won/31-99/3")
        self.notes("No position")


class Access(Page):
    """The page by the keyboard, for a screen reader, in a narrow window and on paper."""

    def test_setting_up_by_keys(self):
        text = "XX......OOOO............"
        self.visit("nine", text)
        self.focus("[data-to=setup]")
        self.keys(Keys.ENTER)
        self.focus(".point")
        self.arrows(0, *[Keys.UP] * 6, *[Keys.LEFT] * 6)
        for point, way, key, mark in (
            (7, [Keys.DOWN], "w", "X"),
            (9, [Keys.UP, Keys.RIGHT, Keys.DOWN], Keys.DELETE, "."),
            (9, [], "b", "O"),
            (8, [Keys.LEFT], Keys.ENTER, "X"),
        ):
            self.arrows(point, *way)
            text = text[:point] + mark + text[point + 1 :]
            self.keys(key, shown=("nine", text))
        self.focus("[data-to=play]")
        self.keys(Keys.ENTER, shown=("nine", text))

    def test_playing_by_keys(self):
        """Moves the stone on 7 to 6, takes it back, and makes the first move of the list."""
        text = ".....O.X..X...O...O.XX.."
        self.visit("nine", text)
        looked = self.looked("nine", text)
        self.focus(".point")
        self.arrows(7, *[Keys.UP] * 6, *[Keys.LEFT] * 6, Keys.DOWN, Keys.ENTER)
        moves = {it: looked.moves[it] for it in looked.moves if it.startswith("7-")}
        self.assertEqual(self.marks(), marks_of(moves, 1))
        self.keys(Keys.ESCAPE)
        self.assertEqual(self.marks(), {})
        self.keys(Keys.ENTER, Keys.DOWN, Keys.ENTER)
        self.has("#played", "it === '7-6'")
        self.focus("#back")
        self.keys(Keys.ENTER, shown=("nine", text))
        self.focus("#moves button")
        best = self.run_script("return document.activeElement.dataset.move;")
        self.assertIn(best, looked.best)
        self.keys(Keys.ENTER)
        self.has("#played", "it === arguments[0]", best)
        self.leaves("nine", text, "white")
        focused = "return document.activeElement.matches('#moves button');"
        self.wait("the focus on a move", focused)
        self.keys(Keys.ENTER)
        self.has("#played", "it.includes(' ')")

    def test_names_for_a_screen_reader(self):
        """Each button and field has one, and each point says what stands on it."""
        self.visit("nine", LONG, "black")
        nameless = self.each("button, input, select, .point, progress, svg", NAME)
        self.assertEqual([it for it in nameless if it], [])
        stones = {"X": "Black stone", "O": "White stone", ".": "vacant"}
        labels = [f"Point {place}: {stones[mark]}" for place, mark in enumerate(LONG)]
        self.assertEqual(self.each(".point", "it.getAttribute('aria-label')"), labels)

    def test_narrow_window(self):
        """Nothing sticks out of a window of 360 pixels, in any of the modes."""
        self.emulate(width=360)
        exercise = "#nine/find/4-3/won/5-99/7"
        for address in (f"#nine/{LONG}", "#nine/pair/4-3", exercise, "#grid/XXX.OO.O."):
            with self.subTest(address):
                self.go(address)
                self.place()
                width = self.run_script("return document.documentElement.scrollWidth;")
                self.assertLessEqual(width, 360)

    def test_paper(self):
        """There are the board, the value and all moves, and nothing to press."""
        self.visit("nine", LONG)
        self.emulate(1200, "print")
        for shown, selectors in ((True, "#board, #value, #moves"), (False, "nav, #steps, .text")):
            found = self.each(selectors, "it.checkVisibility()")
            self.assertEqual(found, [shown] * 3, selectors)
