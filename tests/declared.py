"""What the crates declare: the words of their specs and laws, and the clauses of their calls and types."""
import functools
import glob
import os
import re

from documents import TOP, read

# how a line begins that declares a word: a definition, a law, a record or data with its fields and cases; what a file gives on
DECLARES = re.compile(r"^\s*(?:abbrev |unfoldable )*(?:pub )?(?:(?:record|data) |(?=\S+\s+:\s))([^\s:(){}\[\],]+)", re.M)
GIVES_ON = re.compile(r"^pub use [\w.]+\{(.*)\}$", re.M)
CLAUSE = re.compile(r"\b(?:ensures|requires) (\w+) \{")
# what a trait or an impl says of its type beside the calls; a trait declares it by a `:`
GHOST = re.compile(r"\bghost (\w+)\b")
GHOST_OF_TRAIT = re.compile(r"\bghost (\w+):")
FUNCTION = re.compile(r"\bfn (\w+)(.*?)(?=\bfn \w|\Z)", re.S)
TYPE = re.compile(r"\b(?:struct|enum|trait|type) (\w+)|\bimpl\b[^{;]*?(\w+)(?:<[^{;]*)? \{")


@functools.lru_cache(maxsize=None)
def stands_on():
    """Each crate with the libraries that crates.txt has for it."""
    lines = [line.partition(":") for line in read(f"{TOP}/crates.txt").decode().splitlines() if not line.startswith("#")]
    return {name.split()[0]: set(uses.split()) for name, _, uses in lines}


@functools.lru_cache(maxsize=None)
def reach(crate):
    """The crate and all crates below it."""
    return {crate}.union(*(reach(lower) for lower in stands_on()[crate] if lower in stands_on()))


def without_lines(path, *heads):
    """A file's text without the lines that begin with one of these."""
    return "\n".join(line for line in read(path).decode().splitlines() if not line.lstrip().startswith(heads))


@functools.lru_cache(maxsize=None)
def words(crate, folder):
    """Each file of a crate's `specs` or `proofs`, by its path there, with the words that it declares or gives on."""
    top, found = f"{TOP}/crates/{crate}/{folder}", {}
    for path in glob.glob(f"{top}/**/*.antt", recursive=True):
        text = without_lines(path, "--", "use ")
        given_on = {word.strip() for names in GIVES_ON.findall(text) for word in names.split(",")}
        found[os.path.relpath(path, top)[:-len(".antt")]] = given_on.union(word.strip("◌") for word in DECLARES.findall(text))
    return found


def has_definition(crates, file, word):
    """A file of the specs of one of the crates, or of a crate below them, declares the word."""
    return any(word in words(lower, "specs").get(file, ()) for crate in crates for lower in reach(crate))


@functools.lru_cache(maxsize=None)
def clauses(crate):
    """Each function of a crate with the names of its clauses; each type with all that the files declare in which it stands."""
    found = {}
    for path in glob.glob(f"{TOP}/crates/{crate}/src/**/*.rt", recursive=True):
        code = without_lines(path, "//", "use ")
        functions = FUNCTION.findall(code)
        for name, rest in functions:
            found.setdefault(name, set()).update(CLAUSE.findall(rest))
        told = {*CLAUSE.findall(code), *GHOST.findall(code), *(name for name, _ in functions)}
        found.update({name: set() for name in GHOST_OF_TRAIT.findall(code) if name not in found})
        for name in filter(None, {name for names in TYPE.findall(code) for name in names}):
            found.setdefault(name, set()).update(told)
    return found


@functools.lru_cache(maxsize=None)
def declared(crate):
    """All that a crate or one below it declares. Beside each call and type stand its clauses, beside each word of specs and laws
    those of its file, as the fields of a record.
    """
    found = {}
    for lower in reach(crate):
        files = [names for folder in ("specs", "proofs") for names in words(lower, folder).values()]
        beside = [*clauses(lower).items(), *((name, names) for names in files for name in names)]
        for name, names in beside:
            found.setdefault(name, set()).update(names)
    return found
