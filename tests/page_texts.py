"""The pages, their tables, and what stands in them between backticks."""
import glob
import os
import re

from declared import stands_on
from documents import TOP, examples, read


def text(path):
    return read(f"{TOP}/{path}").decode()


def pages():
    """The paths of all pages."""
    docs = sorted(os.path.relpath(path, TOP) for path in glob.glob(f"{TOP}/docs/*.md"))
    return ["README.md", "CHANGELOG.md", "bench/README.md", *docs, *(f"examples/{name}/README.md" for name in examples())]


def rows(page, column):
    """Each row of the page's tables with such a column: its first cell, and the one of this column."""
    for table in text(page).split("\n\n"):
        head, *lines = (line.strip("|").split(" | ") for line in table.splitlines())
        names = [cell.strip() for cell in head]
        if column in names:
            yield from ((cells[0].strip(), cells[names.index(column)]) for cells in lines[1:])


def quoted(cell):
    """What stands between backticks."""
    return re.findall(r"`([^`]+)`", cell)


def crates_of(cell):
    """The crates of the program that a cell names."""
    return [name for name in quoted(cell) if name in stands_on()]


def rows_with_crates(page, column):
    """The rows of a page's tables with such a column: the crates, which a row may have from the one above, and the cell."""
    crates = []
    for first, cell in rows(page, column):
        crates = crates_of(first) or crates
        yield crates, cell
