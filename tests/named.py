"""What pages name of the crates is declared there or below: words of definitions, calls and their clauses."""
import re

from declared import declared, has_definition, stands_on, words
from page_texts import crates_of, quoted, rows, rows_with_crates, text

ARCHITECTURE, DEFINITIONS = "docs/ARCHITECTURE.md", "docs/DEFINITIONS.md"
PASSES, PROOFS = "docs/PASSES.md", "docs/PROOFS.md"
# where calls and clauses are named: a page, and the column of its tables
CALLS = ((PROOFS, "By which call and clause"), (PASSES, "Call and clause"))


def parts(cell):
    """What a cell names between its `;` and parentheses: calls, types or words, and after a `:` what stands beside them."""
    for part in re.findall(r"(?:`[^`]*`|[^`;()])+", cell):
        signs = re.sub(r"`[^`]*`", lambda name: "_" * len(name[0]), part)
        place = signs.find(":") if ":" in signs else len(part)
        yield quoted(part[:place]), quoted(part[place:])


def undeclared(crates, cell):
    """What a cell names that none of the crates nor one below them declares.

    Of each part of the cell the names before the `:` are declared anywhere there, a call beside its type, and those after it
    beside one of these: as clauses of a call, or fields of a record. A definition with its file before it is in that file.
    """
    there = [declared(crate) for crate in crates]
    for heads, tails in parts(cell):
        calls = [re.sub("<.*", "", name) for name in heads if name not in stands_on() and ": " not in name]
        beside = {clause for call in calls for names in there for clause in names.get(call.split("::")[-1], ())}
        yield from (call for call in calls if not any(is_declared(call, names) for names in there))
        yield from (name for name in tails if ": " not in name and name not in beside)
        yield from (name for name in heads + tails if ": " in name and not has_definition(crates, *name.split(": ")))


def is_declared(call, names):
    """The call is among the declared names, and beside its type where it has one before it, as `Window::new`."""
    where, _, name = call.rpartition("::")
    return name in names and (not where or name in names.get(where, ()))


def fault_of_calls(page, column):
    """What a page's tables name of crates, calls and clauses that isn't there, or None."""
    wrong = [name for first, _ in rows(page, column) for name in quoted(first) if name not in stands_on()]
    for crates, cell in rows_with_crates(page, column):
        wrong += [f"{'/'.join(crates)}: {name}" for name in undeclared(crates, cell)]
    return f"not declared there or below: {wrong}" if wrong else None


def fault_of_operators():
    """What ARCHITECTURE's tables of operators and of boundaries name that no crate declares, or None."""
    cells = [cell for _, cell in rows(ARCHITECTURE, "Operator")] + [first for first, _ in rows(ARCHITECTURE, "The contract")]
    wrong = [name for cell in cells for name in undeclared(crates_of(cell) or stands_on(), cell)]
    return f"no crate declares {wrong}" if wrong else None


def fault_of_terms():
    """The words that come often in PROOFS, as `Stands engine world left`, and that their crates don't declare, or None."""
    said = [(crate, name) for first, where in rows(PROOFS, "Where") for crate in crates_of(where) for name in quoted(first)]
    wrong = [f"{crate}: {name}" for crate, name in said if name.split()[0] not in declared(crate)]
    return f"not declared: {wrong}" if wrong else None


def words_named(line):
    """Each word that a line names with its file, as `File: word`, and the words behind it as words of this file."""
    for first, file, more in re.findall(r"`((\w+): [^`]+)`((?:,? (?:and )?`[^`:]+`(?! of))*)", line):
        yield first
        yield from (f"{file}: {word}" for word in quoted(more))


def fault_of_words():
    """The words that DEFINITIONS names with their file and that it doesn't declare, in a crate that the line names or the heading
    above it, or in one below; or None.
    """
    wrong, section = [], []
    for line in text(DEFINITIONS).splitlines():
        crates = crates_of(line)
        section = crates if line.startswith("#") else section
        wrong += [name for name in words_named(line) if not has_definition(crates + section or stands_on(), *name.split(": "))]
    return f"no file declares {wrong}" if wrong else None


def fault_of_files():
    """The files in DEFINITIONS' table of files that their crates don't have, or None."""
    wrong = []
    for crates, cell in rows_with_crates(DEFINITIONS, "Files"):
        files = [file for file in quoted(cell) if file not in stands_on()]
        wrong += [file for file in files if not any(file in words(crate, "specs") for crate in crates)]
    return f"no such file: {wrong}" if wrong else None


def fault_of_words_of_the_way():
    """The words that begin an item of DEFINITIONS' list, as `Stands` of `rsp_engine`, and aren't declared there, or None."""
    items = re.findall(r"^- ((?:`\w+`(?:, | and | )?)+)(?:and the like )?of\s`(rsp_\w+)`", text(DEFINITIONS), re.M)
    said = [(crate, word) for names, crate in items for word in quoted(names)]
    wrong = [f"{crate}: {word}" for crate, word in said if not any(word in names for names in words(crate, "specs").values())]
    return f"not declared: {wrong}" if wrong else None


def checks():
    """Each check as its name and what it found wrong."""
    for page, column in CALLS:
        yield f"{page}: calls and clauses", fault_of_calls(page, column)
    yield f"{PROOFS}: words that come often", fault_of_terms()
    yield f"{ARCHITECTURE}: operators and boundaries", fault_of_operators()
    yield f"{DEFINITIONS}: words", fault_of_words()
    yield f"{DEFINITIONS}: table of files", fault_of_files()
    yield f"{DEFINITIONS}: words of the way", fault_of_words_of_the_way()
