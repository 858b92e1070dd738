"""The processor seconds that each crate took when it was last proved: on this machine, or else where bench/seconds was written."""
import os
from typing import Dict, Iterable, Mapping

# what a crate is taken to need that was never proved
UNKNOWN = 60.0
# a crate that took less than this part of what it took before was found, or gone on with, and tells nothing
LEAST_PART = 0.1


def seconds_known(paths: Iterable[str], crates: Iterable[str]) -> Dict[str, float]:
    """The seconds of each crate. Where several files tell them, the last one does; lines that can't be read tell nothing."""
    told: Dict[str, float] = {}
    for path in paths:
        told.update(seconds_in(path))
    return {crate: told.get(crate, UNKNOWN) for crate in crates}


def seconds_in(path: str) -> Dict[str, float]:
    try:
        with open(path, encoding="utf-8", errors="replace") as file:
            rows = [line.split() for line in file]
    except OSError:
        return {}
    return {row[0]: float(row[1]) for row in rows if len(row) == 2 and is_number(row[1])}


def is_number(word: str) -> bool:
    whole, _, part = word.partition(".")
    return len(word) < 12 and (whole + part).isascii() and (whole + part).isdigit()


def is_measured(taken: float, known: float) -> bool:
    """Whether what a crate took says what it takes."""
    return taken >= known * LEAST_PART


def note_seconds(path: str, taken: Mapping[str, float]) -> None:
    """Writes what crates took over what the file has of them."""
    rows = sorted({**seconds_in(path), **taken}.items())
    with open(f"{path}.new", "w", encoding="utf-8") as file:
        file.writelines(f"{crate} {seconds:.1f}\n" for crate, seconds in rows)
    os.replace(f"{path}.new", path)
