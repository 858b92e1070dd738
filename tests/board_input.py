"""Input of `tools/board` that can't be shown, and odd texts."""
import json
import signal

from beside.board import lines, state
from board_kept import kept
from board_runs import a_board, iri, need, report, string


def changed(**members):
    """A report with other members; None takes one away."""
    value = {**json.loads(report("q", 1, ["x"], [iri("a:1")])), **members}
    return json.dumps({name: it for name, it in value.items() if it is not None}).encode()


def bad_lines():
    """Lines that can't be shown, each with what is said of it."""
    row = {"bindings": [{"x": {"type": "uri", "value": "a:1"}}]}
    no_report, no_sign = "it is neither a report in JSON nor a refusal", "it begins as a refusal and is none"
    cut = report("q", 1, ["x"]).encode()[:-5]
    yield from ((line, no_report) for line in (b"", b"bad", b"ok", b'{"at":1', cut, b"?s\t?p", b"{}x"))
    yield from ((line, "it isn't UTF-8") for line in (b"\xff", b'{"at":1,"query":"\xff"}', b"# \xff"))
    yield from ((line, no_sign) for line in (
        b"#", b"# refused", b"# refused block 1 15 Late time=1", b"# refused block 1 26 Late", b"# overfull", b"# overfull a b",
        b"# report"))
    table = "it begins a report as a table: the board reads reports as JSON, as `./rsp events --json` writes them"
    yield b"# report q 10000 1", table
    others = b"1", b"[]", b"null", b'"x"', b"NaN", b"9" * 5000, b"1." + b"1" * 5000
    yield from ((line, "it is JSON, and no object") for line in others)
    yield b"[" * 100_000, "it is nested too deep"
    for value in (None, 1, "", "x" * 65, "a b", ["q"], "\udc00"):
        yield changed(query=value), "its `query` is no query's name"
    for value in (None, -1, 253402300800000, True, "1", 1.0, 10 ** 30, []):
        yield changed(at=value), "its `at` is no instant"
    names = "its `head` has no list `vars` of names"
    yield from ((changed(head=value), names) for value in (None, [], {}, {"vars": "x"}, {"vars": [1]}, {"vars": [None]}, "vars"))
    many = [f"v{number}" for number in range(65)]
    yield from ((changed(head={"vars": value}), "its `vars` aren't at most 64 different names") for value in (["x", "x"], many))
    bindings = "its `results` have no list `bindings`"
    yield from ((changed(results=value), bindings) for value in (None, [], {}, {"bindings": {}}, {"bindings": None}))
    term = "one of its rows has what is no term"
    for value in (
            1, None, {}, {"type": "uri"}, {"type": "x", "value": "a"}, {"type": "uri", "value": 1},
            {"type": "uri", "value": None}, {"type": "literal", "value": "a", "datatype": 1},
            {"type": "literal", "value": "a", "more": "b"}, {"value": "a"}):
        yield changed(results={"bindings": [{"x": value}]}), term
    yield from ((changed(results={"bindings": [value]}), term) for value in (1, None, [], "x"))
    yield changed(head={"vars": ["y"]}, results=row), "one of its rows binds what `vars` doesn't name"


def bad_input():
    """lines that are neither a report nor a refusal are counted by line, and the last one is shown with its reason"""
    cases = list(bad_lines())
    board = kept([])
    for number, (line, why) in enumerate(cases, 1):
        board.take(lines.Line(line))
        top = board.top()
        need((top["bad"], top["lines"], top["reports"]) == (number, number, 0), f"{line[:100]} is shown")
        need((top["badLine"]["why"], top["badLine"]["number"]) == (why, number), f"{line[:100]} is told as {top['badLine']}")
        need(len(top["badLine"]["text"]) <= state.MOST_SHOWN + 1, "too much of it is shown")
    board.take(lines.Line(report("q", 1, ["x"]).encode()))
    need(board.top()["reports"] == 1 and board.top()["badLine"]["number"] == len(cases), "a good one behind them isn't taken")
    most = report("q", 1, [f"v{number}" for number in range(64)]).encode()
    good = [most, changed(at=253402300799999), changed(query="x" * 64), changed(more=1)]
    need(kept([], *good).top()["reports"] == len(good), "a report at a limit isn't taken")


def long_and_cut():
    """lines above 16 MiB, and a last line without its line feed, by a process that never traces"""
    most = report("q", 1, ["x"], [string("")]).encode()
    most = most.replace(b'"value":""', b'"value":"%s"' % (b"x" * (lines.MOST_LINE - len(most))))
    with a_board() as board:
        there = board.events()
        cases = (most, 0), (most + b" ", 1), (b"x" * 3 * lines.MOST_LINE, 2), (report("q", 2, ["x"]).encode(), 2)
        for number, (line, bad) in enumerate(cases, 1):
            board.give(line)
            there.wait_lines(number)
            need(there.top["bad"] == bad, f"{len(line)} bytes: {there.top}")
        need(there.top["badLine"]["why"] == lines.TOO_LONG and there.queries["q"]["at"] == 2, f"{there.top}")
        board.process.stdin.write(report("q", 3, ["x"]).encode())
        board.end_input()
        there.wait(lambda events: events.top["input"] == "ended")
        need((there.top["bad"], there.top["badLine"]["why"], there.queries["q"]["at"]) == (3, lines.CUT, 2), f"{there.top}")
        board.process.send_signal(signal.SIGTERM)
        need(board.process.stderr.read() == b"", "it says something")


def odd_texts():
    """lone surrogates, and each sign of Unicode's first plane, go to the page and hold nothing up"""
    signs = "".join(map(chr, range(0x10000)))
    with a_board("--title", "\u2028</script>") as board:
        there = board.events()
        for number in range(0, 0x10000, 400):
            board.give(report("q", number, ["x"], [string(signs[number:number + 400].encode("utf-8", "replace").decode())]))
        lone = changed(head={"vars": ["\ud800"]}, results={"bindings": [{"\ud800": {"type": "uri", "value": "\udfff"}}]})
        board.give(lone)
        there.wait_lines(165)
        need(there.top["bad"] == 0 and there.queries["q"]["cells"][0][0][0] == "\udfff", f"{there.top}, {there.queries['q']}")
        need(there.top["title"] == "\u2028</script>", f"the title is {there.top['title']}")


def in_pieces():
    """lines that come in pieces are the same lines, and nothing waits for a line that hasn't ended"""
    text = "\n".join([report("q", at, ["x"], [iri("a:1")]) for at in (1, 2)] + ["# overfull q 3", ""]).encode()
    for size in (1, 2, 7, 1000):
        splitter = lines.Splitter()
        got = [line for at in range(0, len(text), size) for line in splitter.split(text[at:at + size])]
        need([line.content for line in got] == text.split(b"\n")[:-1], f"in pieces of {size} they are {got}")
        need(not list(splitter.end()), "something is left")


CHECKS = (
    bad_input, long_and_cut, odd_texts, in_pieces)
