"""Checkouts of the sources, in each of which one crate is worked at: the kit keeps a crate and all below it to itself meanwhile."""
import os
import shutil
import tempfile

from .sources import MADE, Sources, bytes_of, files_of_crates


class Checkout:
    """A copy of the sources in a folder of its own, with what the kit made of them there."""

    def __init__(self, folder: str):
        self.folder = folder

    def take(self, sources: Sources) -> None:
        """Makes its files those of the sources. What has not changed is left as it is, and what was made stays."""
        os.makedirs(f"{self.folder}/crates", exist_ok=True)
        for path in set(files_of_crates(self.folder)) - set(sources.files):
            os.remove(f"{self.folder}/{path}")
        for path, content in sources.files.items():
            target = f"{self.folder}/{path}"
            if not os.path.isfile(target) or bytes_of(target) != content:
                os.makedirs(os.path.dirname(target), exist_ok=True)
                with open(target, "wb") as file:
                    file.write(content)

    def crate(self, name: str) -> str:
        return f"{self.folder}/crates/{name}"

    def has_work(self, crate: str) -> bool:
        """Whether something was made of a crate here, with which the kit goes on."""
        return os.path.isdir(f"{self.crate(crate)}/{MADE}/incremental")

    def library(self, crate: str) -> str:
        return f"{self.crate(crate)}/{MADE}/rlib"

    def stamp(self, crate: str):
        """What tells one build of a library from another, None where there is none."""
        try:
            path = f"{self.library(crate)}/stamp"
            return bytes_of(path), os.stat(path).st_mtime_ns
        except OSError:
            return None

    def hand_over(self, crate: str, other: "Checkout") -> None:
        """Gives another checkout the library that was built here. The kit looks at its stamp, and builds anew what doesn't fit."""
        if self.stamp(crate) in (None, other.stamp(crate)):
            return
        made = f"{other.crate(crate)}/{MADE}"
        os.makedirs(made, exist_ok=True)
        with tempfile.TemporaryDirectory(prefix="taken-", dir=made) as room:
            shutil.copytree(self.library(crate), f"{room}/rlib", copy_function=linked)
            shutil.rmtree(other.library(crate), ignore_errors=True)
            os.rename(f"{room}/rlib", other.library(crate))


def linked(source: str, target: str) -> None:
    """Makes a second name of a file, or a copy where the file system has no second names. The kit writes libraries anew."""
    try:
        os.link(source, target)
    except OSError:
        shutil.copy2(source, target)
