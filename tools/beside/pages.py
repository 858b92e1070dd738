"""The documents, of which the tools say what they say: tables, sentences of refusals, blocks that are shown."""
import functools
import re

from . import TOP

QUERIES, REPORTS, EVENTS, RECIPES, TOOLS, PARTS, COSTS = (
    f"docs/{name}.md" for name in ("QUERIES", "REPORTS", "EVENTS", "RECIPES", "TOOLS", "PARTS", "COSTS")
)


@functools.lru_cache(maxsize=None)
def lines_of(document):
    with open(f"{TOP}/{document}", encoding="utf-8") as file:
        return file.read().split("\n")


def section(document, heading):
    """The lines behind a heading, up to the next one."""
    lines = iter(lines_of(document))
    for line in lines:
        if re.fullmatch(f"#+ {re.escape(heading)}", line):
            break
    found = []
    for line in lines:
        if re.match("#+ ", line):
            break
        found.append(line)
    return found


def anchor(heading):
    return re.sub(r"[^\w\- ]", "", heading.lower()).replace(" ", "-")


def page_of(document, heading):
    return f"{document}#{anchor(heading)}"


def table_rows(document, heading):
    """The rows of the tables of a section, each as the texts of its cells; heads and rules apart."""
    rows = [line for line in section(document, heading) if line.startswith("|")]
    is_rule = [re.fullmatch(r"[|\- ]+", row) is not None for row in rows]
    heads = [place for place in range(len(rows)) if is_rule[place] or is_rule[place + 1:place + 2] == [True]]
    return [cells(row) for place, row in enumerate(rows) if place not in heads]


def cells(row):
    return [cell.strip().replace("\\|", "|") for cell in re.split(r"(?<!\\)\|", row)[1:-1]]


def spans(cell):
    """What stands in backquotes in a cell."""
    return re.findall("`([^`]+)`", cell)


def first_block(document, heading):
    """The first indented block of a section that is a block of a log."""
    text = "\n".join(section(document, heading))
    found = re.search(r"(?:^|\n)    (@register(?:.|\n    |\n(?=\n    ))*)", text)
    return re.sub(r"\n    ", "\n", found[1]) + "\n"


UNKNOWN = "it is refused."


@functools.lru_cache(maxsize=None)
def paragraph(kind):
    """What REPORTS says of a refusal behind its number and name: its page and its first sentence."""
    lines, heading = lines_of(REPORTS), ""
    for place, line in enumerate(lines):
        found = re.match(r"#+ (.*)", line)
        heading = found[1] if found else heading
        if line.startswith(f"**{kind}.**"):
            end = next(n for n in range(place, len(lines)) if not lines[n])
            text = " ".join(lines[place:end])[len(f"**{kind}.** "):]
            return page_of(REPORTS, heading), sentence_of(text)
    return page_of(REPORTS, "Refusals"), UNKNOWN


def sentence_of(text):
    """The first sentence of a paragraph; links are their texts."""
    plain = re.sub(r"\[([^\]]*)\]\([^)]*\)", r"\1", text)
    return re.split(r"\.(?: |$)", plain, maxsplit=1)[0] + "."


@functools.lru_cache(maxsize=None)
def limit_of(what):
    """What the table of limits says under refusal 10."""
    return next(most for cell, most in table_rows(REPORTS, "Refusals") if cell == f"`{what}`")
