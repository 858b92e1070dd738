"""The board in a browser: what its page shows of what comes. Without a browser these checks are skipped."""
import json
import re
import subprocess
import sys

import board_runs
import browser
from board_runs import a_board, checked, decimal, iri, need, report, string
from documents import TOP, read
from outcomes import Skipped
from pictures import Picture

PICTURE = f"{TOP}/docs/board.png"
# within so many seconds a report is to stand on the page; of several the middle one, since the machine may be busy
AT_ONCE, SOON = 1, 60
ALARM = (179, 38, 30)

# the texts of a query's table, a list a row, its head in front
TABLE = """[...document.querySelectorAll("section[data-query='{}'] tr")]
    .map(row => [...row.cells].map(cell => cell.textContent))"""
PANELS = "[...document.querySelectorAll('section')].map(panel => panel.dataset.query)"
CUTS = """[...document.querySelectorAll("section[data-query='{}'] .cut")].map(cut => cut.textContent)"""
ALL = "document.body.innerText.replace(/\\d+ s ago/, '')"
NOTES = "document.getElementById('notes').innerText"
LOST = "document.getElementById('connection').textContent"
# what a page must never say: errors, and what its policy forbade
FAULTS = ("Runtime.exceptionThrown", "Log.entryAdded")


class Pages:
    """The pages of a browser, of which none may have an error, or ask for something elsewhere."""

    def __init__(self, browser_):
        self.browser, self.open_pages = browser_, []

    def open(self, board):
        there = self.browser.open("about:blank")
        for domain in ("Runtime", "Log", "Network", "Page"):
            there.call(f"{domain}.enable")
        there.call("Page.navigate", url=board.address)
        self.open_pages.append(there)
        there.wait("document.querySelectorAll('#facts div').length", 7, SOON)
        return there

    def close(self):
        """Closes all pages."""
        for there in self.open_pages:
            there.close()
        self.open_pages = []

    def fault(self, address):
        """The first error that a page had, or the first request to elsewhere; a board that has ended is no error."""
        for event in self.browser.events:
            if event["method"] in FAULTS and "ERR_" not in json.dumps(event):
                return json.dumps(event["params"])[:500]
            if event["method"] == "Network.requestWillBeSent" and not event["params"]["request"]["url"].startswith(address):
                return event["params"]["request"]["url"]
        return None


def short(term):
    """A term as a cell has it, by a reading of its own."""
    if term is None:
        return ""
    if term["type"] == "uri":
        return re.search("([^/#:]+)[/#:]*$", term["value"])[1]
    return ("_:" if term["type"] == "bnode" else "") + term["value"]


def table(line):
    """The table of a report, as Python reads it from its JSON."""
    value = json.loads(line)
    names = value["head"]["vars"]
    return [names, *([short(row.get(name)) for name in names] for row in value["results"]["bindings"])]


def recorded():
    """The lines that the recipe `live` gives."""
    return read(f"{TOP}/examples/recipes/live/wanted").decode().splitlines()


# ---- the checks: each has a board and the pages of a browser

def given_line_by_line(board, pages):
    """reports that come line by line stand in the tables within a second, as Python reads them"""
    there, spent = pages.open(board), []
    for line in recorded():
        board.give(line)
        if line.startswith("{"):
            spent.append(there.wait(TABLE.format("averages"), table(line), SOON))
    need(sorted(spent)[len(spent) // 2] < AT_ONCE, f"they take {spent} seconds")
    there.wait("document.getElementById('refusals').lastChild.textContent", "15 Late: 1 (at most 13000 ms lacking)", SOON)


def points(there, query="averages"):
    """The points of each line of a query's charts."""
    paths = there.evaluate(f"[...document.querySelectorAll(\"section[data-query='{query}'] figure > svg path.drawn\")]"
                           ".map(path => path.getAttribute('d'))")
    return [[tuple(map(float, point.split())) for point in re.findall("L([^ML]+)", path)] for path in paths]


def drawn_lines(board, pages):
    """as many points as reports, further right where they are later, and higher where the value is higher"""
    there = pages.open(board)
    board.give(*recorded())
    there.wait("document.getElementById('lines').lastChild.textContent", str(len(recorded())), SOON)
    reports = [json.loads(line) for line in recorded() if line.startswith("{")]
    for name, drawn in zip(("cellar", "hall"), points(there)):
        rows = [row for its in reports for row in its["results"]["bindings"] if row["sensor"]["value"].endswith(name)]
        numbers = [float(row["average"]["value"]) for row in rows]
        need(len(drawn) == len(numbers) > 10, f"{name} has {len(drawn)} points of {len(numbers)}")
        need([x for x, _ in drawn] == sorted({x for x, _ in drawn}), f"{name} doesn't go to the right")
        both = [(number, y) for number, (_, y) in zip(numbers, drawn)]
        need(all((a < b) == (y > z) or abs(y - z) < 0.2 for a, y in both for b, z in both), f"{name} isn't as high as it is")
    need(points(there)[0][0][1] > points(there)[1][0][1] + 50, "the hall isn't above the cellar")
    labels = there.evaluate("[...document.querySelectorAll('figure li')].map(line => line.innerText.trim())")
    need(labels == ["cellar 12", "hall 20.35"], f"the lines are named {labels}")


def alarms(board, pages):
    """an alarm stands above all else, and new rows have a colour and a word for 30 seconds"""
    there = pages.open(board)
    board.give(report("calm", 1, ["x"], [iri("a:1")]), report("warm", 2, ["room"], [iri("r:kitchen")], [iri("r:hall")]))
    there.wait(PANELS, ["warm", "calm"], SOON)
    there.wait("document.title", "(2) Reports", SOON)
    need(there.evaluate(TABLE.format("warm"))[1:] == [
        ["new", "1970-01-01T00:00:00.002Z", "hall"], ["new", "1970-01-01T00:00:00.002Z", "kitchen"]], "the rows are others")
    x, y = there.evaluate("(({x, y}) => [x, y])(document.querySelector('tr.fresh').getBoundingClientRect())")
    corner = {"x": x, "y": y - 8, "width": 16, "height": 16}
    shown = Picture(there.picture(**corner))
    colour, above = shown.colour(3, 11), shown.colour(3, 3)
    need(colour == ALARM != above, f"its colour is {colour}, above it {above}")
    need(there.evaluate("document.querySelector('tr.fresh').dataset.until - Date.now()") < 30_000, "it is longer than 30 seconds")
    # the clock of the page stands a millisecond before the end, and then at it
    until = there.evaluate("Number(document.querySelector('tr.fresh').dataset.until)")
    there.evaluate(f"Date.now = () => {until} - 1; age()")
    need(there.evaluate("document.querySelectorAll('tr.fresh').length") == 2, "it is over before 30 seconds")
    there.evaluate(f"Date.now = () => {until}")
    there.wait("document.querySelectorAll('tr.fresh').length", 0, SOON)
    need([row[0] for row in there.evaluate(TABLE.format("warm"))[1:]] == ["", ""], "the word is still there")
    need(Picture(there.picture(**corner)).colour(3, 11) != ALARM, "the colour is still there")


def alarms_looked_at(board, pages):
    """what was looked at is counted no more, on no page of the browser, also where they are opened anew"""
    there = pages.open(board)
    board.give(report("warm", 1, ["x"], *([iri(f"a:{number}")] for number in range(150))), report("hot", 1, ["x"], [iri("a:1")]))
    there.wait("document.title", "(151) Reports", SOON)
    second = pages.open(board)
    second.wait("document.title", "(151) Reports", SOON)
    there.call("Page.bringToFront")
    there.call("Input.dispatchMouseEvent", type="mouseMoved", x=100, y=100)
    for page in (there, second):
        page.wait("document.title", "Reports", SOON)
    board.give(report("warm", 2, ["x"], [iri("a:2")]))
    for page in (there, second):
        page.wait("document.title", "(1) Reports", SOON)
    there.reload()
    there.wait("document.title", "(1) Reports", SOON)
    there.call("Input.dispatchKeyEvent", type="keyDown", key="a")
    there.wait("document.title", "Reports", SOON)


def news(board, pages):
    """news add up, the newest first, with their times, and without the colour of an alarm"""
    there = pages.open(board)
    board.give(*(report("late", at, ["bus"], *([string(f"{at}.{number}")] for number in range(60))) for at in (1000, 2000)))
    wanted = [[f"1970-01-01T00:00:0{at}.000Z", f"{at}000.{number}"] for at in (2, 1) for number in range(59, -1, -1)][:100]
    there.wait(TABLE.format("late"), [["time", "bus"], *wanted], SOON)
    size = there.evaluate("document.querySelector('.size').textContent")
    need(size == "100 of 120 rows, the newest first", f"it says {size}")
    marks = there.evaluate("[document.querySelectorAll('.fresh').length, document.title]")
    need(marks == [0, "Reports"], f"it is marked as an alarm: {marks}")


def reload_and_second_page(board, pages):
    """a reload and a second page see the same, and what comes then"""
    there = pages.open(board)
    board.give(*recorded(), report("warm", 2, ["x"], [iri("a:1")]), "bad line", "# overfull q 5")
    there.wait("document.getElementById('lines').lastChild.textContent", str(len(recorded()) + 3), SOON)
    there.wait(PANELS, ["warm", "averages", "q"], SOON)
    before, drawn = there.evaluate(ALL), points(there)
    second = pages.open(board)
    there.reload()
    for page in (there, second):
        page.wait(ALL, before, SOON)
        need(points(page) == drawn, "the lines are others")
    need("overfull at 1970-01-01T00:00:00.005Z: this query is over" in before, before)
    board.give(report("averages", 3, ["sensor", "average"], [iri("r:new"), decimal(7)]))
    for page in (there, second):
        page.wait(TABLE.format("averages"), [["sensor", "average"], ["new", "7"]], SOON)


def ended_and_again(board, pages):
    """where the input has ended, or the board, the page says so, and it goes on with the next board of this address"""
    there = pages.open(board)
    board.give(*recorded())
    there.wait(PANELS, ["averages"], SOON)
    board.end_input()
    there.wait("document.getElementById('input').lastChild.textContent", "ended", SOON)
    need(there.evaluate(LOST) == "", f"it says {there.evaluate(LOST)}")
    board.process.terminate()
    board.process.wait()
    there.wait(f"{LOST}.startsWith('The board has ended')", True, SOON)
    need(there.evaluate(PANELS) == ["averages"], "what it showed is gone")
    with a_board("--title", "Another", port=board.port) as another:
        another.give(report("q", 1, ["x"], [iri("a:1")]))
        there.wait(PANELS, ["q"], SOON)
        there.wait("document.title", "Another", SOON)
        need(there.evaluate(LOST) == "", f"it says {there.evaluate(LOST)}")


MARKUP = "<img src=x onerror=\"document.title='got'\"><script>document.title='got'</script>&amp;</td>"
# the signs that an IRI may have, where the grammar of N-Quads has no escapes
OF_IRI = "".join(chr(code) for code in range(0x21, 0x7f) if chr(code) not in '<>"{}|^`\\') + "é€😀"


def markup_is_text(board, pages):
    """markup in a literal, a tag, a datatype, a variable, a bad line or the title is text, and so is an IRI of each sign"""
    there = pages.open(board)
    terms = [string(MARKUP), {**string("x"), "datatype": MARKUP}, {**string("y"), "xml:lang": MARKUP}]
    terms += [iri(f"a:{OF_IRI}"), decimal(MARKUP)]
    names = [MARKUP, "b", "c", "d", "e"]
    board.give(report("q", 1, names, terms), report("warm", 1, [MARKUP], [string(MARKUP)]), f"bad {MARKUP}")
    there.wait(PANELS, ["warm", "q"], SOON)
    last = re.search("[^/#:]+$", OF_IRI)[0]
    there.wait(TABLE.format("q"), [names, [MARKUP, "x", "y", last, MARKUP]], SOON)
    titles = there.evaluate("[...document.querySelectorAll(\"section[data-query='q'] td\")].map(cell => cell.title)")
    wanted = [f'"{MARKUP}"', f'"x"^^<{MARKUP}>', f'"y"@{MARKUP}', f"a:{OF_IRI}", f'"{MARKUP}"^^<{board_runs.XSD}decimal>']
    need(titles == wanted, f"the titles are {titles}")
    need(f"bad {MARKUP}" in there.evaluate(f"{NOTES}"), "the bad line is another one")
    need(there.evaluate("document.querySelectorAll('img, script').length") == 1, "there is an element that came")
    need(there.evaluate("document.getElementById('title').textContent") == MARKUP, "the title is another one")
    need(there.evaluate("document.title") == f"(1) {MARKUP}", "the title of the window is another one")


def much_at_once(board, pages):
    """10,000 reports at once, 64 queries and one more, 100,000 rows: all is counted, and what is cut is told"""
    there = pages.open(board)
    board.give(*(report("q0", at, ["n"], [decimal(at)]) for at in range(10_000)))
    there.wait("document.getElementById('reports').lastChild.textContent", "10000", 2 * SOON)
    there.wait(CUTS.format("q0"), ["the lines go back 300 reports"], SOON)
    need(len(points(there, "q0")[0]) == 300, "there are other points")
    board.give(*(report(f"q{number}", 1, ["x"], [iri("a:1")]) for number in range(1, 66)))
    there.wait("document.querySelectorAll('section').length", 64, SOON)
    there.wait(f"{NOTES}.includes('64 queries are shown, which is the most: 2 reports of others')", True, SOON)
    board.give(report("q1", 2, ["room", "a"], *([iri(f"r:{number}"), decimal(number)] for number in range(100_000))))
    there.wait("document.querySelector(\"section[data-query='q1'] .size\").textContent", "200 of 100000 rows", 2 * SOON)
    cuts = there.evaluate(CUTS.format("q1"))
    wanted = ["begun anew at 1970-01-01T00:00:00.002Z, with other columns", "12 of 100000 lines are drawn"]
    need(cuts == wanted, f"it tells {cuts}")
    board.give(report("q2", 1, [*"abcde"], *[[decimal(1)] * 5] * 3))
    doubled = "2 rows more of the same lines: the first of each is drawn"
    there.wait(f"{CUTS.format('q2')}.slice(1)", ["3 of 5 numeric columns are drawn", doubled], SOON)


def never_read(board, pages):
    """pages that are never read hold no other page back, and one page too many says so and waits"""
    there, never = pages.open(board), [board.events() for _ in range(31)]
    for number in range(40):
        board.give(report("q", number, ["x", "n"], *([iri(f"a:{row}"), decimal(row)] for row in range(200))))
    there.wait("document.getElementById('lines').lastChild.textContent", "40", 2 * SOON)
    further = pages.browser.open(board.address)
    further.wait(f"{LOST}.startsWith('32 pages are open')", True, SOON)
    never.pop().close()
    further.wait(PANELS, ["q"], SOON)
    need(further.evaluate(LOST) == "", "it still says so")
    further.close()


def bad_input(board, pages):
    """input that can't be shown is told in the page, with the last line"""
    there = pages.open(board)
    cases = (
        ("bad", "it is neither a report in JSON nor a refusal: bad"), (b"\xff\xfe", "it isn't UTF-8: \ufffd\ufffd"),
        (report("q", 1, ["x"])[:20], "it is neither a report in JSON nor a refusal: {\"at\":1"),
        (b"x" * 17_000_000, "it is longer than 16 MiB: xxx"),
        ('{"at":1,"head":{"vars":["x"]},"query":"q q","results":{"bindings":[]}}', "its `query` is no query's name: {"),
    )
    for number, (line, told) in enumerate(cases, 1):
        board.give(line)
        text = f"{number} line{'s' if number > 1 else ''} can't be shown. The last one is line {number}: {told}"
        there.wait(f"document.querySelector('#notes :last-child').textContent.startsWith({json.dumps(text)})", True, SOON)
    need("no report yet of warm" in there.evaluate(NOTES), "it doesn't tell what no report came of")
    board.give('{"graph":1}')
    there.wait(f"{NOTES}.includes('1 graph passed by')", True, SOON)
    there.wait("document.getElementById('input').lastChild.textContent", "open", SOON)


# each check with the words of its board
CHECKS = (
    (given_line_by_line, ()), (drawn_lines, ()), (alarms, ("--alarm", "warm")),
    (alarms_looked_at, ("--alarm", "warm", "--alarm=hot")),
    (news, ("--news", "late")), (reload_and_second_page, ("--alarm", "warm", "--news", "waits")), (ended_and_again, ()),
    (markup_is_text, ("--title", MARKUP, "--alarm", "warm")), (much_at_once, ()), (never_read, ()),
    (bad_input, ("--news", "warm")),
)


def in_browser(check, words, browser_):
    """A check, as one that asks nothing; its pages have no error and ask nothing of elsewhere."""
    def run():
        pages = Pages(browser_)
        browser_.events.clear()
        with a_board(*words) as board:
            try:
                check(board, pages)
                fault = pages.fault(board.address)
            finally:
                pages.close()
            need(fault is None, f"the page: {fault}")

    run.__doc__ = check.__doc__
    return run


def checks():
    """Each check as its name and what it found wrong, or that there is no browser."""
    if not browser.installed():
        yield "tools/board in a browser", Skipped("chromium")
        return
    with browser.a_browser() as there:
        yield from checked(*(in_browser(check, words, there) for check, words in CHECKS))


# ---- the picture of README


WIDTH = 860
PREFIX = "PREFIX : <http://example.org/>\n"
WINDOW = "FROM NAMED WINDOW :w ON :readings [RANGE PT1M]\nWHERE { WINDOW :w { ?r :room ?room ; :celsius ?t }"
QUERIES = f"""@register warm
{PREFIX}REGISTER ISTREAM :warm AS SELECT DISTINCT ?room {WINDOW} FILTER (?t > 30) }}
@end
@register means
{PREFIX}REGISTER RSTREAM :means AS SELECT ?room (AVG(?t) AS ?mean) {WINDOW} }} GROUP BY ?room
@end
"""
ITEM = """@item <http://example.org/readings> {at}
_:{node} <http://example.org/room> <http://example.org/{room}> .
_:{node} <http://example.org/celsius> "{celsius}"^^<http://www.w3.org/2001/XMLSchema#decimal> .
@end
"""


def draw():
    """Draws the picture of README anew: three rooms of half an hour, by the model of the program."""
    if not browser.installed():
        print("tests/board: there is no browser")
        return 1
    model = [sys.executable, f"{TOP}/tests/model.py", "events", "--json"]
    given = subprocess.run(model, input=log_of_picture().encode(), stdout=subprocess.PIPE).stdout
    with a_board("--title", "Three rooms", "--alarm", "warm") as board, browser.a_browser() as there:
        page = Pages(there).open(board)
        board.give(given.rstrip(b"\n"))
        page.call("Emulation.setDeviceMetricsOverride", width=WIDTH, height=100, deviceScaleFactor=1, mobile=False)
        page.wait("document.querySelectorAll('tr.fresh').length", 1)
        height = page.evaluate("Math.ceil(document.querySelector('main').getBoundingClientRect().bottom)") + 16
        page.call("Emulation.setDeviceMetricsOverride", width=WIDTH, height=height, deviceScaleFactor=1, mobile=False)
        with open(PICTURE, "wb") as file:
            file.write(page.picture())
    return 0


def log_of_picture():
    """Readings of three rooms, one a half-minute each, for twenty minutes; one comes late."""
    items = []
    for number in range(1, 41):
        at = 1704096000000 + 30_000 * number
        readings = {"cellar": 12 + number % 3 / 10, "hall": 20 + number / 16, "kitchen": 18 + number * number / 118}
        for room, celsius in readings.items():
            items.append(ITEM.format(at=at, node=f"{room}{number}", room=room, celsius=round(celsius, 1)))
    late = ITEM.format(at=at - 13_000, node="late", room="hall", celsius=20)
    return "".join([QUERIES, *items, late, f"@tick {at}\n"])
