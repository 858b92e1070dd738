"""The sources of all crates, as they stand at one moment."""
import os
from typing import Dict, Iterator, NamedTuple

PROGRAM = "crates/rsp_main/out/rsp_main"
# beside the program: its sum and the line of the kit by which it was proved
PROVED_BY = f"{PROGRAM}.kit"
# what a kit makes beside the sources
MADE = "out"
# what stands at the top and says how the crates are built
OF_TOP = ("crates.txt", "HANDLES")
# what a program is made of, within a crate
PARTS = ("src", "specs", "proofs")


class Sources(NamedTuple):
    """The bytes of each file by its path from the top, and when they began to be read, in nanoseconds."""

    read_at: int
    files: Dict[str, bytes]


def files_of_crates(top: str) -> Iterator[str]:
    """The paths from the top of all files of the crates, without what was made."""
    for folder, folders, names in os.walk(f"{top}/crates"):
        folders[:] = [name for name in folders if name != MADE]
        yield from (os.path.relpath(f"{folder}/{name}", top) for name in names)


def sources_of(top: str, now: int) -> Sources:
    paths = [name for name in OF_TOP if os.path.exists(f"{top}/{name}")]
    return Sources(now, {path: bytes_of(f"{top}/{path}") for path in [*paths, *files_of_crates(top)]})


def is_current(top: str) -> bool:
    """Whether a program stands that is no older than a source, as ./rsp looks at it."""
    try:
        built = os.stat(f"{top}/{PROGRAM}")
        paths = [path for path in files_of_crates(top) if path.split("/")[2] in PARTS]
        times = [os.stat(f"{top}/{path}").st_mtime_ns for path in ["crates.txt", *paths]]
    except OSError:
        return False
    return bool(built.st_mode & 0o111) and max(times) <= built.st_mtime_ns


def bytes_of(path: str) -> bytes:
    with open(path, "rb") as file:
        return file.read()
