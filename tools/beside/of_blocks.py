"""What is told of a refused block of a log: its own faults, the faults of its text, and why its event can't be taken."""
import model

from . import blocks, differing, forms
from .findings import Finding
from .history import REASONS
from .marks import MARK, of_mark
from .of_lines import said_of_line
from .of_texts import NUMBERS, of_text
from .pages import EVENTS, page_of, paragraph
from .places import Place, with_caret
from .refusals import details_of, kind_of, number_of

# the events that can be refused so
EVENTS_OF = {
    15: (b"@item", b"@tick"), 16: (b"@register",), 17: (b"@cancel",), 18: (b"@register",), 19: (b"@item",), 20: (b"@insert",),
    21: (b"@item",), 23: (b"@register",), 25: (b"@register",), **dict.fromkeys(NUMBERS, (b"@register",)),
}


def of_block(block, why, history):
    """A refused block, behind what has happened before it."""
    number = number_of(why)
    if number in (3, 4, 5) and block.why == why:
        return of_form(block, why)
    if block.event is None or block.event[0] not in EVENTS_OF.get(number, ()):
        raise differing.from_model(blocks.place_of(block), why, block.why)
    if number in NUMBERS:
        return of_registered(block, why)
    return of_event(block, why, history)


def of_event(block, why, history):
    """An event that can't be taken: by what it came so, or what REPORTS says."""
    kind, (page, sentence) = kind_of(why), paragraph(kind_of(why))
    found = REASONS[kind](history, block, details_of(why)) if kind in REASONS else (sentence, "")
    if found is None:
        raise differing.told(blocks.place_of(block), why, "by the log so far it isn't so")
    said, write = found
    line, column = block.lines[0], column_of(block, kind)
    return Finding(Place(block.file, line.number, column), kind, said, write, page, with_caret(line.text, column))


def column_of(block, kind):
    """Where it stands in the directive: the time where that is too late, else the first field, if there is one."""
    if kind == "15 Late":
        return blocks.column_of_last_field(block)
    return blocks.column_of_field(block) if len(block.lines[0].text.split()) > 1 else 1


def of_form(block, why):
    """A fault of the block itself; for a line of its body that line, at the column at which it is no statement."""
    kind, number = kind_of(why), details_of(why).get("line", block.lines[0].number)
    line = next((line.text for line in block.lines if line.number == number), None)
    if line is None:
        return without_end(block, Place(block.file, number, 1), kind, None)
    if number_of(why) == 4:
        return of_body(block, Place(block.file, number, 1), kind, line)
    if line.startswith(MARK):
        return of_mark(Place(block.file, number, 1), kind, line)
    page, sentence = paragraph(kind)
    meant = forms.as_directive(line) or forms.as_turtle(line, 1) if number_of(why) == 3 else None
    return Finding(Place(block.file, number, 1), kind, *(meant or (sentence, "", page)), with_caret(line, 1))


def of_body(block, place, kind, line):
    """A line of a body that is none, at the column where it is wrong."""
    if blocks.is_directive(line):
        return without_end(block, place, kind, line)
    page, sentence = paragraph(kind)
    if block.lines[0].text.startswith(b"@register"):
        column, meant = model.valid_front(line) + 1, ("these bytes aren't UTF-8", sentence, page)
    else:
        column, meant = fault_of_line(line, kind)
    there = place._replace(column=column)
    if line.startswith(MARK, column - 1):
        return of_mark(there, kind, line)
    return Finding(there, kind, *meant, with_caret(line, column))


def fault_of_line(line, kind):
    """Where a line that is no statement of this body is wrong, and how: what is so, what to write, and the page."""
    page, sentence = paragraph(kind)
    try:
        model.statement(line)
    except model.BadLine as why:
        meant = forms.as_turtle(line, why.column) if why.name == "BadStatement" else None
        return why.column, meant or (said_of_line(line, why.name, why.column), sentence, page)
    said = "this statement has a graph, and in an `@item` none may stand"
    return 1, (said, f"write {forms.written(forms.without_graph(line))}", page)


def without_end(block, place, kind, line):
    """A body that goes on up to a directive, or to the end of the log."""
    head, *_ = block.lines[0].text.split()
    where = "the log ends here" if line is None else f"here `{line.split()[0].decode()}` would begin another block"
    said = f"{where}, and the body of the `{head.decode()}` at line {block.lines[0].number} isn't ended"
    write = f"`@end` is missing before line {place.line}"
    return Finding(place, kind, said, write, page_of(EVENTS, "Blocks"), with_caret(line, 1) if line else [])


# ---- a query of a log


def of_registered(block, why):
    """A refused text of a query that a block registers. Where the text goes on past a directive, that is the fault."""
    found = of_text(blocks.text_of(block), blocks.query_text(block), why)
    line = next((line for line in block.lines[1:] if blocks.is_directive(line.text)), None)
    if line and found.place.line >= line.number:
        return without_end(block, Place(block.file, line.number, 1), found.kind, line.text)
    return found
