"""`tools/board`: serves a page that shows the reports of the program as they come.

    ./rsp events --json < LOG | tools/board
"""
import os
import select
import signal
import sys
import threading

from ..inputs import told
from .lines import Splitter
from .publishing import Publisher
from .serving import ADDRESS, Server
from .state import Board
from .words import USAGE, WrongWord, parsed

ENDED, WRONG_WORDS, TAKEN = 0, 2, 3
CHUNK = 1 << 20
# seconds in which pages take what is left, at the end
LAST_SECONDS = 2


def board(words):
    """Runs the board on these words, and gives its status."""
    try:
        words = parsed(words)
    except WrongWord as why:
        say(f"tools/board: {why}\n{USAGE}")
        return WRONG_WORDS
    keep_streams_open()
    end_at_signals()
    state = Board(words)
    publisher = Publisher(state)
    try:
        server = Server(words.port, publisher)
    except OSError as why:
        say(f"tools/board: the port {words.port} of {ADDRESS} can't be had: {told(why)}; `--port 0` takes one that is free")
        return TAKEN
    for work in (server.serve_forever, publisher.run):
        threading.Thread(target=work, daemon=True).start()
    say(f"tools/board: {server.address}")
    shown_until_end(state, publisher)
    return ENDED


def end_at_signals():
    """A signal is how a board is ended: nothing is left that has to be cleaned up."""
    for number in (signal.SIGINT, signal.SIGTERM):
        signal.signal(number, lambda *_: os._exit(ENDED))


def shown_until_end(state, publisher):
    """Reads the input to its end, and serves on until a signal comes; under `--once` only until pages have what was last."""
    state.end(read_input(state))
    while not state.words.once:
        signal.pause()
    publisher.finish()
    publisher.wait_for_pages(LAST_SECONDS)


def read_input(state):
    """Takes all lines of standard input; gives the words that say how it ended."""
    splitter = Splitter()
    for chunk in chunks():
        if isinstance(chunk, str):
            return chunk
        fault = pass_on(chunk) if state.words.passes else None
        for line in splitter.split(chunk):
            state.take(line)
        if fault:
            close_input()
            say(f"tools/board: {fault}")
            return fault
    for line in splitter.end():
        state.take(line)
    return "ended"


def chunks():
    """What comes on standard input; last of all a text, where it can't be read."""
    try:
        while True:
            select.select([0], [], [])
            chunk = os.read(0, CHUNK)
            if not chunk:
                return
            yield chunk
    except OSError as why:
        fault = f"standard input can't be read: {told(why)}"
        say(f"tools/board: {fault}")
        yield fault


def pass_on(chunk):
    """Writes a chunk to standard output; gives why it can't be."""
    try:
        while chunk:
            chunk = chunk[os.write(1, chunk):]
    except OSError as why:
        return f"no longer read, since standard output can't be written: {told(why)}"
    return None


def close_input():
    """Ends the input for whoever writes it, so that nothing is written that doesn't go on."""
    os.dup2(os.open(os.devnull, os.O_RDONLY), 0)


def keep_streams_open():
    """A stream that was closed becomes an empty one, so that no connection gets its number."""
    for number in range(3):
        try:
            os.fstat(number)
        except OSError:
            os.open(os.devnull, os.O_RDWR)


def say(text):
    """Says something on standard error, which nobody has to read."""
    try:
        os.write(2, f"{text}\n".encode("utf-8", "replace"))
    except OSError:
        pass


def main():
    """Runs the board, and ends the process at once, whatever its threads do."""
    status = board(sys.argv[1:])
    os._exit(status)
