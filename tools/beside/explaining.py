"""`tools/explain`: for each refusal that the program has written where it is, what is so, and what to write.

    ./rsp events < LOG | tools/explain events LOG
    ./rsp run WORDS | tools/explain run WORDS
    ./rsp check QUERY | tools/explain check QUERY
"""
from . import blocks, differing, recordings
from .differing import or_differs
from .findings import Finding
from .history import MOST_HELD, MOST_QUADS, History, with_slack
from .inputs import file_of, guarded, opened
from .limits import within_limits
from .marks import TornBody, TornGraph
from .of_blocks import of_block
from .of_lines import Lines, of_file_line
from .of_texts import NUMBERS, of_text
from .pages import paragraph
from .places import Place, Text
from .refusals import Good, OfBlock, OfLine, OfQuery, Overfull, details_of, kind_of, number_of, written
from .runs import in_runs
from .texts import looked
from .words import parsed

USAGE = "usage: PROGRAM'S OUTPUT | tools/explain [--lines] events [--json] [--slack N] LOG | run WORDS | check QUERY"


def explain(words):
    """The tool: the program's output comes on standard input."""
    return explained(parsed(words, has_log=True), opened(None))


def explained(words, output):
    """The refusals of an output; many of one cause are one finding."""
    return in_runs(each_explained(words, output))


def each_explained(words, output):
    """Each refusal of an output, as a finding; Differs in the place of one that the model doesn't see so."""
    ways = {"events": of_log, "run": of_run, "check": of_check}
    return ways[words.mode](words, guarded(written(output), "standard input"))


# ---- a log


def of_log(words, entries):
    """Each refusal of a log; what is said of a late item goes by all that are late."""
    entries = Entries(entries)
    history = History(entries.have("19 HeldFull"), words.slack)
    found = list(refusals_of(words.log, entries, history))
    return [with_slack(finding, history) for finding in found]


def refusals_of(name, entries, history):
    """Goes through the log and the output side by side: both are in the order of the blocks."""
    torn = TornBody()
    with opened(name) as log:
        for block in blocks.blocks_of(log, name):
            if entries.are_over():
                break
            why, follows = entries.refusal_of(block.number, history), torn.follows(block)
            if why is not None and not follows:
                yield or_differs(of_block, block, why, history)
            history.take(block, why is not None)
    for entry in entries.left():
        yield differing.told(Place(name, 1, 1), entry.text, "this log has no such block")


class Entries:
    """The entries of an output, and how far they are read."""

    def __init__(self, entries):
        self.all, self.next = list(entries), 0

    def have(self, kind):
        return any(isinstance(entry, OfBlock) and kind_of(entry.text) == kind for entry in self.all)

    def are_over(self):
        return self.next == len(self.all)

    def refusal_of(self, number, history):
        """Why the block is refused, or None; of what stands in the output before it the history is told."""
        while not self.are_over() and isinstance(self.all[self.next], (Overfull, Good)):
            if isinstance(self.all[self.next], Overfull):
                history.note_overfull(*self.all[self.next])
            self.next += 1
        entry = None if self.are_over() else self.all[self.next]
        if not isinstance(entry, OfBlock) or entry.block != number:
            return None
        history.settle()
        self.next += 1
        return entry.text

    def left(self):
        """The refusals that no block of the log was asked for."""
        return [entry for entry in self.all[self.next:] if isinstance(entry, (OfBlock, OfQuery, OfLine))]


# ---- a query's file, and a run


def of_check(words, entries):
    text = Text(words.query, file_of(words.query))
    for entry in entries:
        if isinstance(entry, OfQuery):
            yield or_differs(of_text, text, text.content, entry.text)
        elif isinstance(entry, Good):
            its = within_limits(looked, text.content)
            if its is not None and its.why:
                yield differing.told(text.place(its.at), "ok", f"the model says `{its.why}`")
        elif not isinstance(entry, Overfull):
            yield differing.told(text.place(0), entry.text, "`check` writes no such line")


def of_run(words, entries):
    """A line of a file, the query, or a block of an item, which is known by the place of the item among all."""
    first, items, lines, torn = 2 if words.store else 1, None, Lines(), TornGraph()
    for entry in entries:
        if isinstance(entry, OfLine):
            if not torn.follows(entry, lines.line_of(words, entry)):
                yield or_differs(of_file_line, words, entry, lines)
        elif isinstance(entry, OfBlock) and entry.block == first:
            yield or_differs(of_query, words, entry)
        elif isinstance(entry, OfBlock):
            items = recordings.merged(recordings.recordings_of(words.streams)) if items is None else items
            yield or_differs(of_step, words, entry, entry.block - first - 1, items)


def of_query(words, entry):
    """The block of the query: the faults of its text, or one that isn't the text's."""
    text = Text(words.query, file_of(words.query))
    if number_of(entry.text) in NUMBERS:
        return of_text(text, text.content, entry.text)
    page, sentence = paragraph(kind_of(entry.text))
    return Finding(text.place(0), kind_of(entry.text), sentence, "", page, text.shown(0))


SAID = {
    "19 HeldFull": f"with it {{held}} triples would be kept, and {MOST_HELD} may be",
    "20 StoreFull": f"with it {{quads}} quads would be stored, and {MOST_QUADS} may be",
}


def of_step(words, entry, place_among_items, items):
    """The block of the store, which stands before the query, or that of an item."""
    kind, (page, sentence) = kind_of(entry.text), paragraph(kind_of(entry.text))
    said = SAID[kind].format(**details_of(entry.text)) if kind in SAID else sentence
    if words.store and place_among_items == -2:
        return Finding(Place(words.store, 1, 1), kind, said, "", page)
    if not 0 <= place_among_items < len(items):
        raise differing.told(Place(words.query, 1, 1), entry.text, "this run has no such block")
    item = items[place_among_items]
    return Finding(Place(item.file, item.line, 1), kind, said, "", page)
