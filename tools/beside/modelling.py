"""`tools/model`: what the program writes, worked out by the models of tests/ on a machine that has Python alone.

    tools/model events [--json] [--slack N] < LOG
    tools/model run [--json] [--store FILE] QUERY STREAM=FILE..
    tools/model check QUERY
    tools/model gen COUNT

Output and status are the program's; what else there is to say stands on standard error.
"""
import contextlib
import os
import re
import sys
import threading
from typing import Iterator, List, NamedTuple, Optional, Tuple

import model
from json_reports import as_json
from query_model import MOST_TEXT
from term_model import Blank

from .inputs import TooLong, Unreadable, file_of
from .recordings import time_in
from .words import OPTIONS, WrongWords, parsed, split

SAYS = "this is a plain model in Python, neither proved nor the program: it is slow, and answers when its input has ended"
DONE, REFUSED, USAGE, READ_FAULT, WRITE_FAULT, OUT_OF_MEMORY, TOO_LONG = range(7)
INTERRUPTED = 130
STACK = 512 << 20
PIECE = 1 << 20


class Answer(NamedTuple):
    """What a run writes, its status, and what standard error says of it, if anything."""

    output: bytes
    status: int
    said: Optional[str] = None


def answer(words):
    """The answer of the program to the words, the files that they name, and standard input."""
    if words[:1] == ["gen"]:
        return of_count(words)
    try:
        asked = parsed(words)
        if asked.mode == "events":
            return of_log(asked, has_json(words))
        return of_run(asked, has_json(words)) if asked.mode == "run" else of_check(asked)
    except WrongWords:
        return Answer(model.USAGE, USAGE)
    except TooLong as why:
        return Answer(b"", TOO_LONG, str(why))
    except Unreadable as why:
        return Answer(b"", READ_FAULT, str(why))


def has_json(words):
    return "--json" in split(words[1:], OPTIONS[words[0]])[1]


def of_count(words):
    """The words of `gen` name a count, and nothing else."""
    values, _ = split(words[1:], ())
    count = re.fullmatch("0*([1-9][0-9]{0,6})", values[0]) if len(values) == 1 else None
    if count is None or int(count[1]) > model.MOST_COUNT:
        return Answer(model.USAGE, USAGE)
    return Answer(model.summary(int(count[1])), DONE)


def reported(given, is_json):
    """The texts that blocks and lines give, each with whether it is a refusal, as one answer."""
    given = list(given)
    text = b"".join(text for text, _ in given)
    return Answer(as_json(text) if is_json else text, REFUSED if any(is_refused for _, is_refused in given) else DONE)


# ---- a log


def of_log(asked, is_json):
    log, why = input_read()
    given = model.answers(log, asked.slack)
    if why is None:
        return reported(given, is_json)
    # the blocks are answered whose last line was read to its end
    whole = [pair for pair, _ in zip(given, range(model.whole_blocks(log)))]
    return Answer(reported(whole, is_json).output, READ_FAULT, f"standard input: {why}")


def input_read() -> Tuple[bytes, Optional[str]]:
    """Standard input as far as it can be read, and why it can't be read further."""
    pieces: List[bytes] = []
    try:
        while True:
            piece = os.read(0, PIECE)
            if not piece:
                return b"".join(pieces), None
            pieces.append(piece)
    except OSError as error:
        return b"".join(pieces), error.strerror


# ---- a text in a file


def fault_of_file(content):
    """The fault that only a file's bytes can have, or None."""
    if len(content) > MOST_TEXT:
        return "10 Limit what=text"
    front = model.valid_front(content)
    return None if front == len(content) else f"7 BadToken at={front}"


def of_check(asked):
    content = file_of(asked.query)
    why = fault_of_file(content)
    try:
        why = why or (model.good_query(content) and None)
    except model.Refused as refused:
        why = str(refused)
    return Answer(f"# refused query {why}\n".encode(), REFUSED) if why else Answer(b"ok\n", DONE)


# ---- recorded files


class Statement(NamedTuple):
    """A line of a file: its number, and its terms, or else its fault."""

    number: int
    terms: tuple = ()
    fault: Optional[str] = None


class Document(NamedTuple):
    """What a file of statements says, and the faults of its lines."""

    said: list
    faults: List[Statement]


def statements(content, document) -> Iterator[Statement]:
    """The lines that aren't blank. Blank nodes are those of the document, which has this number."""
    for number, raw in enumerate(content.split(b"\n"), 1):
        try:
            terms = model.statement(raw[:-1] if raw.endswith(b"\r") else raw)
        except model.BadLine as why:
            kind = {"BadStatement": 1, "RelativeIri": 2}[why.name]
            yield Statement(number, fault=f"{kind} {why.name} column={why.column}")
            continue
        if terms:
            yield Statement(number, tuple(term._replace(document=document) if isinstance(term, Blank) else term for term in terms))


def stored(content, document):
    """The quads of a store's file."""
    lines = list(statements(content, document))
    said = [model.stored_fact(line.terms[:3], *line.terms[3:]) for line in lines if not line.fault]
    return Document(said, [line for line in lines if line.fault])


def recorded(stream, content, document):
    """The items of a recorded stream: each is a time line, and behind it the quads of the graph that this names."""
    items, faults, name = [], [], None
    for line in statements(content, document):
        time = None if line.fault else time_in(line.terms)
        if time is not None:
            items.append((stream, time, []))
            name = line.terms[0]
        elif not line.fault and name is not None and line.terms[3:] == (name,):
            items[-1][2].append(line.terms[:3])
        else:
            faults.append(line if line.fault else line._replace(fault="6 NoTimeLine"))
    return Document(items, faults)


def of_run(asked, is_json):
    """One query over recorded files. All of them are read before anything else is looked at."""
    text = file_of(asked.query)
    contents = {name: file_of(name) for name in [asked.store, *(stream.file for stream in asked.streams)] if name is not None}
    store = None if asked.store is None else stored(contents[asked.store], 1)
    first = 1 if store is None else 2
    streams = [recorded(stream.name, contents[stream.file], at) for at, stream in enumerate(asked.streams, first)]
    files = [*([] if store is None else [asked.store]), *(stream.file for stream in asked.streams)]
    documents = [*([] if store is None else [store]), *streams]
    lines = [refused_line(file, line) for file, document in zip(files, documents) for line in document.faults]
    return reported([*lines, *replayed(events(text, store, streams))], is_json)


def refused_line(file, line):
    return b"# refused file %s line %d %s\n" % (os.fsencode(file), line.number, line.fault.encode()), True


def events(text, store, streams):
    """The events of the files, in order."""
    if store is not None:
        yield b"@insert", store.said
    yield b"@register", b"query", text
    items = sorted((item for stream in streams for item in stream.said), key=lambda item: item[1])
    yield from ((b"@item", *item) for item in items)
    if items:
        yield b"@tick", items[-1][1]


def replayed(happening):
    """What each event gives, and whether it is refused."""
    world = model.World()
    for number, event in enumerate(happening, 1):
        try:
            why = fault_of_file(event[2]) if event[0] == b"@register" else None
            if why:
                raise model.Refused(why)
            yield world.take(*event), False
        except model.Refused as refused:
            yield b"# refused block %d %s\n" % (number, str(refused).encode()), True


# ---- the process


def say(text):
    with contextlib.suppress(OSError):
        os.write(2, f"model: {text}\n".encode("utf-8", "surrogateescape"))


def written_out(text):
    """Whether all of the text could be written to standard output."""
    try:
        while text:
            text = text[os.write(1, text):]
        return True
    except OSError as error:
        say(f"standard output: {error.strerror}")
        return False


def answered(words, answers):
    """Works an answer out; what the machine can't do is one, too."""
    try:
        answers.append(answer(words))
    except (MemoryError, RecursionError, OverflowError):
        answers.append(Answer(b"", OUT_OF_MEMORY, "there isn't the memory that this takes"))


def main():
    """Answers the words of the process on a stack that is large enough for all texts, and gives the status."""
    say(SAYS)
    answers: List[Answer] = []
    threading.stack_size(STACK)
    worker = threading.Thread(target=answered, args=(sys.argv[1:], answers), daemon=True)
    try:
        worker.start()
        worker.join()
    except KeyboardInterrupt:
        os._exit(INTERRUPTED)
    (found,) = answers
    if found.said:
        say(found.said)
    return found.status if written_out(found.output) else WRITE_FAULT
