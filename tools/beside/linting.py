"""`tools/lint`: what stands in a query, in files or in a log that has no fault, and that hardly anybody means.

    tools/lint check QUERY
    tools/lint run [--json] [--store FILE] QUERY STREAM=FILE..
    tools/lint events [--json] [--slack N] < LOG
"""
from policy_model import policy_of

from . import blocks, recordings
from .bindings import unbound
from .course import Course
from .exactness import inexact
from .feeding import unfed, unlooked, unread, unstored
from .inputs import complain, file_of, name_of_input, opened
from .limits import SECONDS, within_limits
from .marks import TornBody, TornGraph
from .merged_triples import merged
from .of_blocks import of_block, of_form
from .of_lines import of_line
from .of_texts import of_text as of_refused_text
from .places import Place, Text
from .runs import in_runs
from .telling import restless
from .texts import looked
from .timing import gap, late, seconds, unclosed
from .unlike import unlike
from .unseen import unseen
from .words import parsed

USAGE = (
    "usage: tools/lint [--lines] events [--json] [--slack N] < LOG"
    " | run [--json] [--store FILE] QUERY STREAM=FILE.. | check QUERY"
)


def lint(words):
    """The findings of the words, as they stand in the files and the log."""
    words = parsed(words)
    if words.mode == "events":
        with opened(None) as log:
            return of_log(log, name_of_input(), words.slack)
    return of_run(words) if words.mode == "run" else of_check(words)


def of_text(query, text, values=None):
    """What a query's text says alone, or with the values that it meets."""
    return [*unbound(query, text), *inexact(query, text, values), *unlooked(query, text), *restless(query, text)]


def looked_at(content, text, tool="lint"):
    """What the models say of a text; None where they say nothing in time, which is told on standard error."""
    its = within_limits(looked, content)
    if its is None:
        file, line, _ = text.place(0)
        complain(tool, f"{file}:{line}: the model hasn't read this text in {SECONDS} seconds, so nothing is said of it")
    return its


def of_check(words):
    text = Text(words.query, file_of(words.query))
    its = looked_at(text.content, text)
    if its is None:
        return []
    return [of_refused_text(text, text.content, its.why)] if its.why else in_order(of_text(its.query, text))


# ---- a run, whose events are the store, the query, the items and a last tick


def of_run(words):
    """As the program, it reads all files before it looks at the text."""
    text = Text(words.query, file_of(words.query))
    stores = [recordings.Store(words.store)] if words.store else []
    streams = recordings.recordings_of(words.streams)
    faults = faults_of_files([*stores, *streams])
    its = looked_at(text.content, text)
    if its is None or its.why:
        return in_order([*faults, *([of_refused_text(text, text.content, its.why)] if its else [])])
    named = {stream.name: Place(stream.file, 1, 1) for stream in reversed(words.streams)}
    course = course_of_run(Course(), its.query, text, stores, streams)
    # a file that is named feeds its stream, whatever it holds
    course.live[b"query"].fed.update(named)
    return in_order([*faults, *findings_of(course, words.mode, named)])


def faults_of_files(files):
    """What is told of the refused lines of files; what follows from the first line of a graph isn't."""
    torn = TornGraph()
    return list(in_runs(of_line(*one) for file in files for one in file.refused if not torn.follows(*one)))


def course_of_run(course, query, text, stores, streams):
    """The course, behind all events of a run."""
    for store in stores:
        course.insert([quad.fact for quad in store.quads], [Place(store.file, quad.line, 1) for quad in store.quads])
    course.refused.stores = any(store.refused for store in stores)
    course.register(b"query", query, text)
    for stream in streams:
        if stream.refused:
            course.refused.note_stream(stream.stream)
    items = recordings.merged(streams)
    for item in items:
        places = [Place(item.file, line, 1) for line in item.lines]
        course.item(item.stream, item.time, item.graph, item.is_number, Place(item.file, item.line, 1), places)
    if items:
        course.tick(items[-1].time)
    return course


# ---- a log


def of_log(log, name, slack=0):
    """The findings of a log, an open file, under the name."""
    course = Course(slack)
    faults, named = course_of_log(course, log, name)
    return in_order([*in_runs(faults), *findings_of(course, "events", named)])


def course_of_log(course, log, name):
    """Leads the course through a log; its faults, and the first place of each stream."""
    faults, named, torn = [], {}, TornBody()
    for block in blocks.blocks_of(log, name):
        follows = torn.follows(block)
        if block.event is not None:
            take(block, course, faults, named)
        elif not follows:
            faults.append(of_form(block, block.why))
            course.refused.note(block)
    return faults, named


def take(block, course, faults, named):
    """Goes on behind a block that has the form of an event."""
    head, *fields = block.event
    if head == b"@register":
        register(block, course, faults)
    elif head == b"@cancel":
        course.cancel(fields[0])
    elif head == b"@tick":
        course.tick(fields[0])
    elif head == b"@item":
        stream, time, graph = fields
        line = block.lines[0]
        named.setdefault(stream, Place(block.file, line.number, blocks.column_of_field(block)))
        place = Place(block.file, line.number, blocks.column_of_last_field(block))
        course.item(stream, time, graph, line.text.split()[-1].isdigit(), place, places_of_body(block))
    elif head == b"@insert":
        course.insert(fields[0], places_of_body(block))
    elif head == b"@delete":
        course.delete(fields[0])


def places_of_body(block):
    """The places of the statements of a body."""
    said = (line for line in block.lines[1:-1] if line.text.strip(b" \t") and not line.text.lstrip(b" \t").startswith(b"#"))
    return [Place(block.file, line.number, 1) for line in said]


def register(block, course, faults):
    """Registers a query that the program takes; of one that it doesn't take the streams are known to nobody."""
    name, text, content = block.event[1], blocks.text_of(block), blocks.query_text(block)
    its = None if name in course.live else looked_at(content, text)
    wrong = its and why_refused(its, course.slack)
    if its and not wrong:
        course.register(name, its.query, text)
        return
    course.refused.note(block)
    if wrong:
        faults.append(of_block(block, wrong, None))


def why_refused(its, slack):
    """Why the program refuses a query: for its text, or since it looks at items in the order in which they come."""
    return its.why or ("23 SlackTuple" if slack and policy_of(its.query["policy"]).is_by_tuple else None)


# ---- both


def findings_of(course, mode, named):
    """All findings, behind the last event."""
    course.end()
    found = [*unread(course, named), *seconds(course), *late(course)]
    for watched in course.watched:
        found += of_text(watched.query, watched.text, course.values)
        found += [*unlike(watched.query, watched.text, course.values), *merged(watched), *gap(watched)]
        found += [*unfed(watched, course, mode), *unseen(watched, course)]
        found += [*unstored(watched, course, mode), *unclosed(watched, course, mode)]
    return found


def in_order(found):
    """The findings by their files, as they come first, and in each by their places."""
    files = list(dict.fromkeys(finding.place.file for finding in found))
    return sorted(found, key=lambda finding: (files.index(finding.place.file), finding.place.line, finding.place.column))
