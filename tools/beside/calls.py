"""How the tools are called: their words, `--lines` first of all, and their statuses. What goes wrong is said, not traced."""
import os
import sys
from collections import namedtuple

from .differing import Differs
from .findings import as_json
from .inputs import Unreadable, complain, told
from .words import WrongWords

NOTHING, FOUND, WRONG_WORDS, UNREADABLE, DIFFERS = range(5)

# what a tool says that is no finding, as text and as a line of JSON
Answer = namedtuple("Answer", "text line")


def called(tool, usage, work, in_text):
    """Runs a tool on the words of the process, and gives its status. `work` gives findings, faults with a finding, answers."""
    words, write = sys.argv[1:], in_text
    if words[:1] == ["--lines"]:
        words, write = words[1:], as_json
    return status_of(tool, usage, lambda: written_out(work(words), write))


def status_of(tool, usage, work):
    """The status that the work gives, or that of what went wrong, which is said on standard error."""
    try:
        return work()
    except WrongWords:
        sys.stderr.write(f"{usage}\n")
        return WRONG_WORDS
    except Unreadable as why:
        complain(tool, why)
        return UNREADABLE
    except (MemoryError, RecursionError, OverflowError):
        complain(tool, "the input is too large to be looked at")
        return UNREADABLE
    except OSError as why:
        # what is left to be written goes nowhere, so that nothing is tried again at the end of the process
        os.dup2(os.open(os.devnull, os.O_WRONLY), 1)
        if isinstance(why, BrokenPipeError):
            return FOUND
        complain(tool, told(why))
        return UNREADABLE
    except KeyboardInterrupt:
        return 130


def written_out(findings, write):
    status = NOTHING
    for found in findings:
        if isinstance(found, Answer):
            write_at_once(found.line if write is as_json else found.text)
            continue
        if isinstance(found, Differs):
            status, found = DIFFERS, found.finding
        write_at_once(write(found))
        status = max(status, FOUND)
    return status


def write_at_once(text):
    sys.stdout.buffer.write(text.encode("utf-8", "surrogateescape"))
    sys.stdout.buffer.flush()
