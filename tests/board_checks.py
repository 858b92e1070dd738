"""What `tools/board` does without a browser: its words, statuses and limits, its server, and each kind of input."""
import os
import sys

sys.dont_write_bytecode = True
TOP = os.path.dirname(os.path.dirname(os.path.realpath(__file__)))
sys.path.insert(0, f"{TOP}/tools")
import board_input  # noqa: E402
import board_kept  # noqa: E402
import board_server  # noqa: E402
import board_words  # noqa: E402
from beside.board import charts, panels, publishing, state, terms, words  # noqa: E402
from beside.board.words import USAGE  # noqa: E402
from board_runs import checked, need  # noqa: E402
from documents import read, skipped  # noqa: E402


def every_word_is_told():
    """docs/TOOLS.md has a section, which tells each word and each limit, and the usage each word"""
    section = read(f"{TOP}/docs/TOOLS.md").decode().split("\n## board\n")[1].split("\n## ")[0]
    options = *words.NUMBERS, *words.NAMES, *words.FLAGS, "--title"
    missing = [option for option in options if f"`{option}" not in section or option not in USAGE]
    limits = (
        "8734", "300", "200", f"{state.MOST_QUERIES} queries", f"{charts.MOST_CHARTS} charts", f"{charts.MOST_LINES} lines",
        f"{panels.MOST_NEWS} rows", f"{publishing.MOST_PAGES} pages", f"{terms.MOST_SIGNS} signs", "16 MiB")
    missing += [limit for limit in limits if limit not in section]
    need(not missing, f"it doesn't tell {missing}")


def checks():
    """Each check as its name and what it found wrong, or which tool it lacks."""
    for part in (board_words, board_server, board_kept, board_input):
        yield from checked(*part.CHECKS)
    yield from checked(every_word_is_told)
    lacks = skipped("mosquitto")
    if lacks:
        yield "tools/board behind mosquitto", lacks
    else:
        yield from checked(board_server.behind_mosquitto)
