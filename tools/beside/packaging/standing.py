"""Whether a program may be packed: it is proved, no older than a source, and its sources are those of a commit."""
import hashlib
import os
import re
import subprocess
from typing import List, NamedTuple

from ..building.sources import PROGRAM, PROVED_BY, bytes_of, is_current
from ..inputs import Unreadable

# what of the sources goes into a package, or into the program
PACKED = ("crates", "crates.txt", "docs", "examples", "README.md", "CHANGELOG.md")


class Standing(NamedTuple):
    """What the program was made from: the version, the commit and its time in seconds, and the kit's line."""

    number: str
    commit: str
    time: int
    kit: str

    @property
    def version(self) -> str:
        return f"{self.number}+{self.commit[:12]}"


def standing(top: str) -> Standing:
    """What stands, or Unreadable with the reason for which it isn't packed."""
    if not os.path.isfile(f"{top}/{PROGRAM}"):
        raise Unreadable("there is no program: ./rsp proves and builds it")
    if not is_current(top):
        raise Unreadable("a source is newer than the program: ./rsp proves and builds it anew")
    kit = proved_by(top)
    if not kit:
        raise Unreadable(f"the program has no mark of a build by ./rsp: remove {PROGRAM}, and ./rsp makes one that has")
    commit, time = of_commit(top)
    return Standing(number(top), commit, time, kit)


def proved_by(top: str) -> str:
    """The line of the kit by which the program that stands was proved, empty where it isn't the one that was noted as proved."""
    try:
        stamp, mark = bytes_of(f"{top}/{PROGRAM}.stamp").decode(), bytes_of(f"{top}/{PROVED_BY}").decode()
    except (OSError, UnicodeDecodeError):
        return ""
    made = hashlib.sha256(bytes_of(f"{top}/{PROGRAM}")).hexdigest()
    noted, _, kit = mark.strip().partition(" ")
    return kit if noted == made and stamp.endswith(made) else ""


def of_commit(top: str):
    """The commit whose sources these are, and its time."""
    words = said_by(["git", "log", "-1", "--format=%H %ct"], top).split()
    if len(words) != 2:
        raise Unreadable("the sources are those of no commit of git")
    changed = said_by(["git", "status", "--porcelain", "--", *PACKED], top).splitlines()
    if changed:
        raise Unreadable(f"the sources aren't those of the commit {words[0][:12]}: {changed[0].strip()}")
    return words[0], int(words[1])


def number(top: str) -> str:
    found = re.search(r"^## (\d[\d.]*)", bytes_of(f"{top}/CHANGELOG.md").decode(errors="replace"), re.M)
    if not found:
        raise Unreadable("CHANGELOG.md has no version")
    return found[1]


def said_by(words: List[str], folder: str) -> str:
    """What a program says, nothing where it isn't there or fails."""
    try:
        ran = subprocess.run(words, cwd=folder, stdin=subprocess.DEVNULL, stdout=subprocess.PIPE, stderr=subprocess.DEVNULL, check=True)
        return ran.stdout.decode(errors="replace")
    except (OSError, subprocess.CalledProcessError):
        return ""
