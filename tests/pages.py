"""What pages say of the repository's own files: links lead somewhere, what is there is named, and what is named is there.

Alone it says what it found wrong of these; tests/run does so among all else.
"""
import glob
import os
import re
import sys

sys.dont_write_bytecode = True
import named  # noqa: E402
from declared import stands_on  # noqa: E402
from documents import TOP, blocks, read  # noqa: E402
from page_texts import pages, quoted, rows, text  # noqa: E402

ARCHITECTURE, CHANGING, COMING_FROM = "docs/ARCHITECTURE.md", "docs/CHANGING.md", "docs/COMING-FROM.md"
DEFINITIONS, PROOFS, TASKS = "docs/DEFINITIONS.md", "docs/PROOFS.md", "docs/TASKS.md"
# what each task of TASKS has, and how many items its log may have
PARTS_OF_TASK = ("@register q", "# report q", "**Not seen:**", "**Elsewhere:**", "Esper", "Flink SQL", "C-SPARQL", "Materialize")
MOST_ITEMS = 10


def anchors(path):
    """The anchors of a page's headings: small letters, a hyphen for each blank, and no other signs."""
    heads = re.findall(r"^#+ (.*)$", text(path), re.M)
    return {re.sub(r"[^\w -]", "", head.lower()).replace(" ", "-") for head in heads}


def fault_of_links(page):
    """The first link of a page that leads to no file or no heading of this repository, or None."""
    for target in re.findall(r"\]\(([^)\s]+)\)", text(page)):
        if target.startswith("http"):
            continue
        file, _, anchor = target.partition("#")
        path = os.path.normpath(f"{os.path.dirname(page)}/{file}") if file else page
        if not os.path.exists(f"{TOP}/{path}") or anchor and anchor not in anchors(path):
            return f"{target} leads nowhere"
    return None


# how a file or folder of the repository is named: from its crate or from the top on, without its ending where it is code
PATH = re.compile(r"`((?:rsp_\w+|bench|docs|examples|plants|tests|tools)/[\w./-]+)`")


def fault_of_paths(page):
    """The files that a page names and that aren't there, or None; names in capitals stand for any."""
    named = [path for path in PATH.findall(text(page)) if not re.search(r"/[A-Z]+(/|$)", path)]
    places = {path: [f"{top}/{path}{end}" for top in (TOP, f"{TOP}/crates") for end in ("", ".rt", ".antt")] for path in named}
    missing = [path for path in named if not any(map(os.path.exists, places[path]))]
    return f"no such file: {missing}" if missing else None


def rows_of_crates():
    """Each row of ARCHITECTURE's tables of crates: its crate, and the libraries that it says this one stands on."""
    return ((first.strip("`"), set(quoted(uses))) for first, uses in rows(ARCHITECTURE, "Stands on"))


def fault_of_crates():
    """What differs between ARCHITECTURE's tables and crates.txt, or None."""
    told, there = list(rows_of_crates()), stands_on()
    if sorted(name for name, _ in told) != sorted(there):
        return f"not once in a table, or not in crates.txt: {sorted({name for name, _ in told} ^ set(there)) or 'some twice'}"
    wrong = next(((name, uses) for name, uses in told if uses != there[name]), None)
    return wrong and f"{wrong[0]} differs in {sorted(wrong[1] ^ there[wrong[0]])}"


def fault_of_proofs():
    """The crates beside those of tests that a table of what is proved doesn't name, or None."""
    named = {name for first, _ in rows(PROOFS, "By which call and clause") for name in quoted(first)}
    missing = {name for name in stands_on() if not name.endswith("_tests")} - named
    return f"no row has {sorted(missing)}" if missing else None


def fault_of_definitions():
    """The files of definitions that DEFINITIONS doesn't name, or None."""
    parts = re.split(r"^(?=#+ )", text(DEFINITIONS), flags=re.M)
    files = sorted(glob.glob(f"{TOP}/crates/*/specs/**/*.antt", recursive=True))
    missing = [os.path.relpath(path, TOP) for path in files if is_definitions(path) and not is_named(path, parts)]
    return f"it doesn't name {missing}" if missing else None


def is_definitions(path):
    return read(path).startswith(b"-- Definitions") and os.path.basename(path) != "Lib.antt"


def is_named(path, parts):
    """Some part that names the crate has the file, as `Windows` or as `Windows: opening`."""
    crate, file = re.search(r"crates/(\w+)/specs/(.*)\.antt", path).groups()
    return any(f"`{crate}`" in part and re.search(rf"`{file}[`:]", part) for part in parts)


def fault_of_places(page):
    """The `file: word` of a page whose file isn't there or hasn't that word, or None."""
    wrong = [f"{path}: {word}" for path, word in re.findall(r"`([\w./-]+): ([^`]+)`", text(page)) if not has_word(path, word)]
    return f"no such place: {wrong}" if wrong else None


def has_word(path, word):
    """A file of a crate is named from its crate on; a folder has the words of all its files."""
    path = f"{TOP}/crates/{path}" if path.startswith("rsp_") else f"{TOP}/{path}"
    files = [path] if os.path.isfile(path) else glob.glob(f"{path}/**", recursive=True)
    return any(re.search(rf"(?<!\w){re.escape(word)}(?![\w])", read(file).decode()) for file in files if os.path.isfile(file))


def fault_of_fragments():
    """The first fragment in a column "Here" of COMING-FROM that no block of the page has, or None; `..` stands for anything."""
    shown = " ".join("".join(block.text for block in blocks(COMING_FROM)).split())
    for _, cell in rows(COMING_FROM, "Here"):
        for fragment in quoted(cell):
            if any(part.strip() not in shown for part in fragment.split("..")):
                return f"no block has {fragment}"
    return None


def fault_of_tasks():
    """The first task that lacks a part, or whose log has too many items, or None."""
    for part in re.split(r"^(?=# )", text(TASKS), flags=re.M):
        if part.count("\n    @item ") > MOST_ITEMS:
            return f"more than {MOST_ITEMS} items: {part.splitlines()[0]}"
        for task in re.split(r"^(?=## )", part, flags=re.M)[1:]:
            missing = [words for words in PARTS_OF_TASK if words not in " ".join(task.split())]
            if missing:
                return f"{task.splitlines()[0]} lacks {missing}"
    return None


def checks():
    """Each check as its name and what it found wrong."""
    for page in pages():
        yield f"{page}: links", fault_of_links(page)
        yield f"{page}: files", fault_of_paths(page)
    yield f"{ARCHITECTURE}: what crates stand on", fault_of_crates()
    yield f"{DEFINITIONS}: files of definitions", fault_of_definitions()
    yield f"{PROOFS}: crates", fault_of_proofs()
    yield from named.checks()
    yield f"{CHANGING}: files and words", fault_of_places(CHANGING)
    yield f"{COMING_FROM}: what is here", fault_of_fragments()
    yield f"{TASKS}: parts of each task", fault_of_tasks()


def main():
    found = list(checks())
    faults = [f"{name}: {wrong}" for name, wrong in found if wrong]
    print(*faults, f"{len(found) - len(faults)} passed, {len(faults)} failed", sep="\n")
    return int(bool(faults))


if __name__ == "__main__":
    sys.exit(main())
