"""The words and statuses of `tools/board`, and how its input goes on."""
import os
import signal
import subprocess
import time

from beside.board import lines, words
from beside.board.words import USAGE
from board_runs import BOARD, SECONDS, a_board, ended, iri, need, report, request
from documents import next_bytes

# seconds in which a board ends
SOON = 10

# ---- words and statuses

WRONG = (
    ["--port"], ["--port", ""], ["--port", "x"], ["--port=65536"], ["--port=-1"], ["--port", "1", "--port", "2"],
    ["--points", "0"], ["--points", "10001"], ["--rows", "0"], ["--rows=10001"], ["--rows", "1e3"],
    ["--title"], ["--title", ""], ["--title=" + "x" * 201], ["--news"], ["--news", ""], ["--news", "a b"], ["--news", "x" * 65],
    ["--alarm"], ["--alarm=é"], ["--pass=1"], ["--once", "--once"],
    ["--help"], ["-h"], ["--"], [""], ["log"], ["--ports", "1"], ["--port", "\udcff"], ["\udcff"], ["--pass", "--pass"],
    ["--title", "a", "--title", "b"], ["--points", "1", "--points=1"], ["--rows", "1", "--rows=1"],
)


def wrong_words():
    """wrong words read nothing, are told with the usage, and have the status 2"""
    for said in WRONG:
        try:
            words.parsed(said)
            need(False, f"{said} is right")
        except words.WrongWord as why:
            need(str(why), f"{said} has no reason")
    for said in (["--port", "x"], ["--help"], ["--news", b"\xff"]):
        status, output, told = ended(*said)
        is_good = told.startswith("tools/board: ") and told.endswith(f"\n{USAGE}\n") and len(told.splitlines()) == 2
        need((status, output) == (2, b"") and is_good, f"{said} gives {status}, {output} and {told}")


def right_words():
    """right words, in any order, and what stands without them"""
    plain = words.parsed([])
    need(plain == (8734, 300, 200, "Reports", frozenset(), frozenset(), False, False), f"without words it is {plain}")
    said = ["--once", "--news", "a", "--rows=3", "--points", "02", "--alarm=b", "--pass", "--news=c", "--title=", "--port", "0"]
    said[9] = "--title= <b>&\udcff"
    all_words = words.parsed(said)
    wanted = (0, 2, 3, " <b>&\ufffd", frozenset("abc"), frozenset("b"), True, True)
    need(all_words == wanted, f"{said} are {all_words}")
    ends = words.parsed(["--port", "65535", "--rows", "10000", "--points", "10000", "--title", "x" * 200, "--news", "y" * 64])
    need(ends[:3] == (65535, 10000, 10000), f"the most are {ends}")


def port_is_taken():
    """a port that is taken: status 3, and the board that has it serves on"""
    with a_board() as board:
        status, output, told = ended("--port", str(board.port), "--once")
        need((status, output) == (3, b"") and f"port {board.port} " in told and len(told.splitlines()) == 1, f"{status}, {told}")
        need(board.answer(request("/", board.port)).startswith(b"HTTP/1.0 200 "), "the other one doesn't answer")


def ends_once():
    """--once ends with the input, with status 0, and an open page has what was last; without it the board serves on"""
    with a_board("--once") as board:
        there = board.events()
        board.give(report("q", 1, ["x"], [iri("a:1")]))
        there.wait_lines(1)
        board.give(report("q", 2, ["x"], [iri("a:2")]))
        board.end_input()
        there.wait(lambda events: events.top["input"] == "ended").wait_lines(2)
        while there.take(time.monotonic() + SOON):
            pass
        need((there.top["input"], there.queries["q"]["at"]) == ("ended", 2), "what was last isn't there")
        need(board.process.wait(SOON) == 0, f"its status is {board.process.returncode}")
    status, output, told = ended("--port", "0", "--once", given=b"x\n")
    need((status, output, len(told.splitlines())) == (0, b"", 1), f"alone it gives {status}, {output} and {told}")
    with a_board() as board:
        board.end_input()
        there = board.events().wait(lambda events: events.top and events.top["input"] == "ended")
        need(board.process.poll() is None, "it has ended with its input")


def ends_by_signal():
    """Ctrl-C and SIGTERM end the board at once, with status 0, within its input and behind it"""
    for number, is_over in ((signal.SIGINT, False), (signal.SIGTERM, False), (signal.SIGINT, True), (signal.SIGTERM, True)):
        with a_board() as board:
            there = board.events()
            if is_over:
                board.end_input()
                there.wait(lambda events: events.top and events.top["input"] == "ended")
            board.process.send_signal(number)
            need(board.process.wait(SOON) == 0, f"its status is {board.process.returncode}")
            need(board.process.stderr.read() == b"", "it says something")


# ---- the input goes on


def passes_on():
    """--pass gives each line on at once, byte by byte as it came; without it nothing is written"""
    with a_board("--pass", "--once", stdout=subprocess.PIPE) as board:
        for line in (report("q", 1, ["x"]).encode(), b"# refused block 1 14 PolicyMix", b"\xff\0", b"", b"x" * 100_000):
            board.give(line)
            got = next_bytes(board.process.stdout, len(line) + 1)
            need(got == line + b"\n", f"with the input still open it gave {got[:100]}")
        board.process.stdin.write(b"no line feed")
        board.end_input()
        need(board.process.stdout.read() == b"no line feed", "the last line is another one")
        need(board.process.wait(SOON) == 0, f"its status is {board.process.returncode}")
    long = b"y" * (lines.MOST_LINE + 10) + b"\n"
    need(ended("--port", "0", "--once", "--pass", given=long)[:2] == (0, long), "a line that is too long doesn't go on")
    need(ended("--port", "0", "--once", given=b"x\n")[1] == b"", "it writes without --pass")


def passes_to_nobody():
    """where standard output can't be written the input is read no more, the page says so, and it serves on"""
    reading, writing = os.pipe()
    os.close(reading)
    with a_board("--pass", stdout=writing) as board:
        os.close(writing)
        board.give(report("q", 1, ["x"]))
        there = board.events().wait(lambda events: events.top and events.top["input"] != "open")
        need("standard output can't be written" in there.top["input"], f"the input is {there.top['input']}")
        need(b"standard output" in board.process.stderr.readline(), "nothing is said")
        try:
            for _ in range(SOON * 10):
                board.give("x")
                time.sleep(0.1)
            need(False, "who writes isn't told")
        except BrokenPipeError:
            pass
    with open("/dev/full", "wb") as full:
        status, _, told = ended("--port", "0", "--pass", "--once", given=b"x\n", stdout=full)
    need(status == 0 and "No space left" in told, f"a full device gives {status} and {told}")


def odd_streams():
    """streams that are closed, or can't be read, are told, and never a trace"""
    for command, said in (("<&-", ""), ("<&- >&-", ""), ("< /dev/null >&-", ""), ("0> /dev/null", "Bad file descriptor")):
        script = f'"{BOARD}" --port 0 --once --pass {command}'
        ran = subprocess.run(["bash", "-c", script], capture_output=True, timeout=SECONDS)
        told = ran.stderr.decode()
        need(ran.returncode == 0 and said in told and "Traceback" not in told, f"{command} gives {ran.returncode} and {told}")
    script = f'"{BOARD}" --port x 2>&-; "{BOARD}" --port 0 --once 2>&- < /dev/null'
    ran = subprocess.run(["bash", "-c", script], timeout=SECONDS)
    need(ran.returncode == 0, f"without standard error the status is {ran.returncode}")


def waits_for_input():
    """an input that is set non-blocking is waited for"""
    reading, writing = os.pipe()
    os.set_blocking(reading, False)
    with a_board(stdin=reading) as board:
        there = board.events()
        for number in (1, 2):
            os.write(writing, report("q", number, ["x"]).encode() + b"\n")
            there.wait_lines(number)
        os.close(writing)
        there.wait(lambda events: events.top["input"] == "ended")
    os.close(reading)


CHECKS = (
    wrong_words, right_words, port_is_taken, ends_once, ends_by_signal, passes_on, passes_to_nobody, odd_streams, waits_for_input)
