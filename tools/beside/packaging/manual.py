"""The page `rsp.1` for `man`, made from the tables of REPORTS, the usage line and an example."""
import re
from typing import Iterator, List, NamedTuple

from ..inputs import Unreadable


TABLE = re.compile(r"(?:^\|.*\n)+", re.M)


class Refusal(NamedTuple):
    """A refusal by its number, with its name, the paragraph that says when it comes, and the rows of the table behind that."""

    number: int
    name: str
    text: str
    rows: List[List[str]]


def manual(reports: str, example: str, version: str, date: str) -> str:
    """The whole page. `reports` is the text of docs/REPORTS.md, `example` a log and what comes of it, as a text of lines."""
    return "\n".join([
        f'.TH RSP 1 "{date}" "rsp {version}" "User Commands"',
        ".SH NAME", r"rsp \- asks SPARQL queries of streams of RDF graphs",
        ".SH SYNOPSIS", *synopsis(reports),
        ".SH DESCRIPTION", *(line for row in table(reports, "## Words") for line in tagged(row[0], f"Reads: {row[1]}. Writes: {row[2]}.")),
        ".PP", roff(paragraph(reports, "QUERY and FILE are")), ".PP", roff(whole(paragraph(reports, "Options stand anywhere"))),
        ".SH EXIT STATUS", *(line for row in table(reports, "## Statuses")[:7] for line in tagged(
            f"{row[0]} {row[1]}", f"{row[2]}. Guaranteed: {row[3]}.")),
        ".SS After a fault", *(line for row in table(reports, "### After a fault") for line in tagged(row[0], row[1])),
        ".SH REFUSALS", *unfilled(code(reports, "## Refusals")), ".PP", roff(paragraph(reports, "N is the block's number")),
        *rows(table(reports, "## Refusals")),
        *(line for it in refusals(reports) for line in [*tagged(f"{it.number} {it.name}", it.text), *rows(it.rows)]),
        ".SH EXAMPLES", *unfilled(example),
        ".SH SEE ALSO", "The pages in /usr/share/doc/rsp.", ""])


def synopsis(reports: str) -> Iterator[str]:
    """The usage line, a mode a line."""
    found = re.search(r"^    usage: (.*)$", reports, re.M)
    if not found:
        raise Unreadable("REPORTS.md has no usage line")
    for at, mode in enumerate(found[1].split(" | ")):
        yield from [".br"] * bool(at)
        yield r"\fB" + roff("rsp " + mode.replace("rsp ", "", 1) if at else mode) + r"\fR"


def table(text: str, heading: str) -> List[List[str]]:
    """The rows of the first table behind a heading, without its head."""
    found = TABLE.search(behind(text, heading))
    if not found:
        raise Unreadable(f"REPORTS.md has no table behind `{heading}`")
    return cells(found[0])


def code(text: str, heading: str) -> str:
    """The first lines of code behind a heading."""
    found = re.search(r"^(?: {4}.*\n)+", behind(text, heading), re.M)
    if not found:
        raise Unreadable(f"REPORTS.md has no lines of code behind `{heading}`")
    return re.sub("^    ", "", found[0], flags=re.M)


def behind(text: str, heading: str) -> str:
    return text.partition(f"\n{heading}\n")[2]


def cells(lines: str) -> List[List[str]]:
    return [[cell.strip() for cell in line.strip("|").split(" | ")] for line in lines.splitlines()[2:]]


def paragraph(text: str, begin: str) -> str:
    found = re.search(rf"^{re.escape(begin)}(?:.+\n)+", text, re.M)
    if not found:
        raise Unreadable(f"REPORTS.md has no paragraph that begins `{begin}`")
    return found[0].replace("\n", " ").strip()


def refusals(text: str) -> List[Refusal]:
    found = re.findall(rf"^\*\*(\d+) (\w+)\.\*\* ((?:.+\n)+)\n({TABLE.pattern})?", text, re.M)
    return sorted(refusal(int(number), name, words.replace("\n", " ").strip(), cells(lines)) for number, name, words, lines in found)


def refusal(number: int, name: str, text: str, found: List[List[str]]) -> Refusal:
    """A table of more than two columns is an example, and left out."""
    is_told = bool(found) and len(found[0]) == 2
    return Refusal(number, name, text if is_told else whole(text), found if is_told else [])


def whole(text: str) -> str:
    """A paragraph without its last sentence, where that only leads to what stands behind it."""
    return re.sub(r"(?<=[.)]) [A-Z](?:(?!\. [A-Z]).)*:$", "", text)


def unfilled(text: str) -> List[str]:
    """Lines that stay as they are."""
    return [".nf", *map(roff, text.splitlines()), ".fi"]


def rows(found: List[List[str]]) -> List[str]:
    """The rows of a table, further in than what stands before."""
    return [".RS", *(line for row in found for line in tagged(row[0], row[1])), ".RE"] if found else []


def tagged(tag: str, words: str) -> List[str]:
    return [".TP", r"\fB" + roff(tag) + r"\fR", roff(words)]


def roff(text: str) -> str:
    """A line of a page as `man` takes it: code and strong words in bold, of a link its text."""
    text = re.sub(r"\[([^\]]*)\]\([^)\s]*\)", r"\1", text).replace("\\", r"\e").replace("-", r"\-")
    text = re.sub(r"`([^`]*)`|\*\*([^*]+)\*\*", lambda found: rf"\fB{found[1] or found[2] or ''}\fP", text)
    return rf"\&{text}" if text[:1] in (".", "'") else text
