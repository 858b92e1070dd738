"""What `tools/board` keeps of its input, and its limits, without a server."""
import time

from beside.board import charts, lines, panels, publishing, state, terms, words
from board_runs import XSD, decimal, iri, need, report, string


def kept(said, *texts):
    """A board of these words that has taken these lines, without a server."""
    board = state.Board(words.parsed(said))
    for text in texts:
        board.take(lines.Line(text if isinstance(text, bytes) else text.encode()))
    return board


def shown(said, *texts):
    """What it shows of its first query."""
    return kept(said, *texts).panel_shown("q")


# ---- what stands at the top


def counts():
    """queries, reports, refusals by name, what was lacking, overfull ones, the last line, and the input"""
    late = "# refused block {} 15 Late time={} next={}"
    there = kept(
        [], *(report(name, at, ["x"]) for name, at in (("p", 1), ("q", 2), ("q", 3))), "# overfull q 4",
        "# refused block 1 14 PolicyMix",
        late.format(2, 5, 9), late.format(3, 5, 7005), late.format(4, 5, 6), "# refused file a b line 2 1 BadStatement column=3",
        b"# refused file \xff line 2 6 NoTimeLine", "# refused query 8 Syntax at=5", "# refused block 9 10 Limit what=rows",
        '{"graph":[],"at":1,"query":"q"}', '{"graph":1}').top()
    wanted = {
        "queries": 2, "reports": 3, "overfull": 1, "lacking": 7000, "graphs": 2, "bad": 0, "badLine": None, "lines": 14,
        "input": "open", "others": 0, "waiting": [],
    }
    wanted["refused"] = [
        ("1 BadStatement", 1), ("6 NoTimeLine", 1), ("8 Syntax", 1), ("10 Limit", 1), ("14 PolicyMix", 1), ("15 Late", 3)]
    differing = {name: there[name] for name in wanted if there[name] != wanted[name]}
    need(not differing and abs(there["last"] - time.time()) < 60, f"it has {differing}, {there['last']}")
    need(kept([]).top()["last"] is None and kept([]).top()["lacking"] is None, "a board without lines has a last one")


def names_that_wait():
    """news and alarms of which no report came are named"""
    board = kept(["--news", "b", "--alarm", "a", "--news", "q"], report("q", 1, ["x"]))
    need(board.top()["waiting"] == ["a", "b"], f"it names {board.top()['waiting']}")


def overfull_queries():
    """an overfull query is over, also where no report of it came, and a new one of its name isn't"""
    need((shown([], "# overfull q 7")["overfull"], shown([], "# overfull q 7")["at"]) == (7, None), "it isn't told")
    need(shown([], report("q", 1, ["x"]), "# overfull q 7")["overfull"] == 7, "it isn't told behind a report")
    need(shown([], "# overfull q 7", report("q", 8, ["x"]))["overfull"] is None, "a new one is over")


# ---- limits


def queries_at_most():
    """64 queries are shown, and reports of others are counted"""
    board = kept([], *(report(f"q{number}", 1, ["x"]) for number in range(70)), report("q0", 2, ["x"]), "# overfull q66 3")
    top = board.top()
    need((top["queries"], top["others"], top["reports"], top["overfull"]) == (64, 6, 71, 1), f"it has {top}")
    need(len(board.panels) == 64 and board.panel_shown("q0")["at"] == 2, "another one has a panel")


def rows_at_most():
    """--rows: so many rows of a report are shown, 200 without it"""
    many = report("q", 1, ["x"], *([iri(f"a:{number}")] for number in range(250)))
    for said, wanted in (([], 200), (["--rows", "7"], 7), (["--rows", "250"], 250), (["--rows", "251"], 250)):
        there = shown(said, many)
        need((len(there["cells"]), there["rows"]) == (wanted, 250), f"{said} shows {len(there['cells'])} of {there['rows']}")
    need([row[0].text for row in shown(["--rows", "2"], many)["cells"]] == ["0", "1"], "they aren't the first ones")


def points_at_most():
    """--points: so many points a line, 300 without it, the newest ones"""
    many = [report("q", number, ["n"], [decimal(number)]) for number in range(310)]
    for said, wanted in (([], 300), (["--points", "2"], 2), (["--points=310"], 310), (["--points=311"], 310)):
        there = shown(said, *many)
        (line,) = there["charts"][0]["lines"]
        need((there["times"][-1], line["values"][-1]) == (309, "309"), "the newest isn't there")
        need(len(there["times"]) == len(line["values"]) == wanted, f"{said} has {len(there['times'])} points")


def lines_at_most():
    """12 lines a chart, and how many of the last report aren't drawn; a line whose points are forgotten makes room"""
    def readings(at, first):
        return report("q", at, ["room", "n"], *([iri(f"r:{number}"), decimal(number)] for number in range(first, first + 15)))

    there = shown([], readings(1, 0))
    need((len(there["charts"][0]["lines"]), there["undrawn"]) == (12, 3), f"it draws {len(there['charts'][0]['lines'])}")
    there = shown(["--points", "2"], readings(1, 0), readings(2, 10), readings(3, 12))
    labels = [line["label"] for line in there["charts"][0]["lines"]]
    need((labels[:2], len(labels), there["undrawn"]) == (["10", "11"], 12, 5), f"it draws {labels}, and not {there['undrawn']}")
    values = there["charts"][0]["lines"][0]["values"]
    need(values == ["10", None] and there["times"] == [2, 3], f"the points are {values}")


def charts_at_most():
    """three numeric columns are drawn, and how many aren't"""
    names = ["a", "b", "c", "d", "e"]
    there = shown([], report("q", 1, ["room", *names], [iri("r:1"), *(decimal(number) for number in range(5))]))
    drawn = [chart["column"] for chart in there["charts"]]
    need((drawn, there["further"]) == (["a", "b", "c"], 2), f"it draws {drawn}")


def news_at_most():
    """--news and --alarm: reports add up to the newest 100 rows, the newest first"""
    reports = [report("q", at, ["x"], *([iri(f"a:{at}.{number}")] for number in range(60))) for at in (1, 2)]
    reports += [report("q", 3, ["x"]), report("q", 4, ["x"], [iri("a:4.0")])]
    for said, kind in ((["--news", "q"], "news"), (["--alarm", "q"], "alarm"), (["--alarm", "q", "--news", "q"], "alarm")):
        there = shown(said, *reports)
        numbers, first = [number for number, *_ in there["news"]], there["news"][0]
        got = there["kind"], there["all"], numbers
        need(got == (kind, 121, list(range(121, 21, -1))), f"it has {got}")
        need((first[1], first[2][0].whole) == (4, "a:4.0") and there["news"][1][2][0].whole == "a:2.59", f"the first is {first}")
    need(shown([], *reports)["kind"] == "last" and not shown([], *reports)["news"], "it adds up without the word")
    large = report("q", 1, ["x"], *([iri(f"a:{number}")] for number in range(1000)))
    there = shown(["--news=q"], large)
    need((len(there["news"]), there["all"], there["news"][0][0]) == (100, 1000, 1000), "a large report has other news")


def texts_at_most():
    """a cell keeps 500 signs, and says where it is cut"""
    for signs, wanted in ((500, "x" * 500), (501, "x" * 500 + "… (cut: 501 signs)")):
        there = shown([], report("q", 1, ["x"], [string("x" * signs)]))["cells"][0][0]
        need(there.text == wanted and len(there.whole) < 530, f"{signs} signs are {there}")
    differing = [[string("x" * 600 + end), decimal(1)] for end in "ab"]
    need(len(shown([], report("q", 1, ["x", "n"], *differing))["charts"][0]["lines"]) == 2, "long texts aren't told apart")
    limits = terms.MOST_SIGNS, charts.MOST_CHARTS, charts.MOST_LINES, panels.MOST_NEWS, state.MOST_QUERIES, publishing.MOST_PAGES
    need(limits == (500, 3, 12, 100, 64, 32), f"the limits are {limits}")


# ---- cells and lines


def cells():
    """an IRI by its last part, a number as its text says it, unbound as nothing, and the whole of each"""
    def literal(value, **more):
        return {**string(value), **more}

    long = "12345678901234567890.123456789"
    cases = (
        (iri("http://example.org/kitchen"), "kitchen", "http://example.org/kitchen"),
        (iri("http://e.org/x#y"), "y", "http://e.org/x#y"),
        (iri("http://example.org/a/"), "a", "http://example.org/a/"), (iri("urn:x:y"), "y", "urn:x:y"), (iri("a:"), "a", "a:"),
        (iri("http://example.org/cold%20store"), "cold%20store", "http://example.org/cold%20store"), (iri(":/"), ":/", ":/"),
        ({"type": "bnode", "value": "b1"}, "_:b1", "_:b1"), (string("a/b#c"), "a/b#c", '"a/b#c"'), (string(""), "", '""'),
        (literal("chat", **{"xml:lang": "fr"}), "chat", '"chat"@fr'), (string("a\nb\t\0"), "a\nb\t\0", '"a\nb\t\0"'),
        (decimal(long), long, f'"{long}"^^<{XSD}decimal>'),
        (literal("1E400", datatype=f"{XSD}double"), "1E400", f'"1E400"^^<{XSD}double>'),
        (literal("007", datatype=f"{XSD}integer"), "007", f'"007"^^<{XSD}integer>'),
        (literal("x", datatype="d:t"), "x", '"x"^^<d:t>'),
    )
    for term, text, whole in cases:
        got = shown([], report("q", 1, ["x"], [term]))["cells"][0][0]
        need(got[:2] == (text, whole), f"{term} is {got}")
    need(shown([], report("q", 1, ["x"], [None]))["cells"] == [[None]], "an unbound variable is something")
    numbers = [shown([], report("q", 1, ["x"], [term]))["cells"][0][0].is_number for term, _, _ in cases]
    need([index for index, is_number in enumerate(numbers) if is_number] == [12, 13, 14], f"numbers are {numbers}")


def values(*texts):
    """The lines of a query's first chart: of each its label and its values."""
    return [(line["label"], line["values"]) for line in shown([], *texts)["charts"][0]["lines"]]


def groups():
    """a line for each numeric column and group of the other columns, with a gap where a report has no number"""
    two = ["room", "floor", "n"]
    hall, attic = [iri("r:hall"), string("up")], [iri("r:attic"), None]
    endless = {**decimal("INF"), "datatype": f"{XSD}double"}
    got = values(
        report("q", 1, two, [*hall, decimal("1.50")], [*attic, decimal(2)]), report("q", 2, two, [*hall, None]),
        report("q", 3, two), report("q", 4, two, [*hall, decimal("-3")], [*attic, endless]))
    need(got == [("hall · up", ["1.50", None, None, "-3"]), ("attic", ["2", None, None, None])], f"the lines are {got}")
    same = [[iri(f"{space}:hall"), decimal(number)] for number, space in enumerate("abc")]
    need(len(values(report("q", 1, ["room", "n"], *same))) == 3, "IRIs of one last part are one line")
    alone = values(report("q", 1, ["n"], [decimal(5)]))
    need(alone == [("", ["5"])], f"a number alone is {alone}")
    long = values(report("q", 1, ["n"], [decimal("1" * 41)]))[0][1][0]
    need(float(long) == float("1" * 41) and len(long) < 30, f"a long number is drawn at {long}")


def columns_that_change():
    """a column that isn't numeric after all, or columns that change: lines begin anew, and so does all where columns change"""
    got = values(report("q", 1, ["a", "n"], [decimal(1), decimal(2)]), report("q", 2, ["a", "n"], [string("x"), decimal(3)]))
    need(got == [("x", ["3"])], f"the lines are {got}")
    there = shown(["--news", "q"], report("q", 1, ["a"], [iri("a:1")]), report("q", 2, ["b"], [iri("b:1")]))
    need((there["anew"], len(there["news"]), there["variables"], there["times"]) == (2, 1, ["b"], [2]), f"it has {there}")
    need(shown([], report("q", 1, ["a"]), report("q", 2, ["a"]))["anew"] is None, "the same columns begin anew")
    two = report("q", 1, ["n", "m"], [decimal(1), decimal(2)], [decimal(3), decimal(4)], [decimal(5), decimal(6)])
    need((shown([], two)["doubled"], values(two)) == (2, [("", ["1"])]), "rows of one line are drawn twice")


CHECKS = (
    counts, names_that_wait, overfull_queries, queries_at_most, rows_at_most, points_at_most, lines_at_most, charts_at_most,
    news_at_most, texts_at_most, cells, groups, columns_that_change)
