"""The files of a package by their paths below `/usr`, with their bytes and modes."""
import gzip
import hashlib
import os
import re
import time
from typing import Dict, Iterator, NamedTuple

from ..building.sources import PROGRAM, bytes_of
from .manual import manual
from .standing import Standing

# the pages for users, as README lists them
PAGES = ("GUIDE", "QUERIES", "TASKS", "RECIPES", "EVENTS", "REPORTS", "TOOLS", "COSTS", "PARTS", "COMING-FROM")
BESIDE = ("README.md", "CHANGELOG.md", "docs/board.png")
OWN, DOC = "lib/rsp", "share/doc/rsp"
RECIPE = "examples/recipes/again"
UNIT = "lib/systemd/system/rsp@.service"
# a log comes through a named pipe, which the service holds open, so it ends only when it is stopped
UNIT_TEXT = """[Unit]
Description=Reports of the log %i, by rsp
Documentation=man:rsp(1) file:///usr/share/doc/rsp/docs/RECIPES.md

[Service]
# The log comes through /run/rsp-%i/log. It is kept in /var/lib/rsp/%i/kept, and the reports stand in /var/lib/rsp/%i/reports.
# Options of `rsp events` stand in /etc/default/rsp-%i, as RSP_OPTIONS=--json.
DynamicUser=yes
RuntimeDirectory=rsp-%i
StateDirectory=rsp/%i
WorkingDirectory=%S/rsp/%i
EnvironmentFile=-/etc/default/rsp-%i
ExecStartPre=/bin/sh -c 'rm -f "$$RUNTIME_DIRECTORY/log" && mkfifo -m 622 "$$RUNTIME_DIRECTORY/log"'
ExecStart=/bin/bash -c 'exec /usr/lib/rsp/examples/recipes/again/script kept reports $$RSP_OPTIONS <> "$$RUNTIME_DIRECTORY/log" >> reports'
# Whatever ends it, it goes on behind what came out. It doesn't where the files don't fit each other, or the log is too long.
Restart=always
RestartSec=5
RestartPreventExitStatus=6 125

[Install]
WantedBy=multi-user.target
"""


class File(NamedTuple):
    """A file's bytes and its mode; of a link the path that it leads to."""

    content: bytes
    mode: int = 0o644
    link: str = ""


def tree(top: str, standing: Standing) -> Dict[str, File]:
    """All files. The last of them says what the others are made from, with their sums."""
    files = {f"{OWN}/rsp": File(bytes_of(f"{top}/{PROGRAM}"), 0o755), "bin/rsp": File(b"", 0o777, "../lib/rsp/rsp")}
    files.update(recipe(top))
    files.update(pages(top))
    files[UNIT] = File(UNIT_TEXT.encode())
    files["share/man/man1/rsp.1.gz"] = File(gzip.compress(manual_of(top, standing).encode(), mtime=0))
    files[f"{DOC}/BUILD"] = File(build_text(standing, files).encode())
    return files


def recipe(top: str) -> Iterator:
    """The recipe that goes on with a log, where it finds the program as it does among the sources."""
    for name in ("script", "blocks"):
        yield f"{OWN}/{RECIPE}/{name}", File(bytes_of(f"{top}/{RECIPE}/{name}"), 0o755)


def pages(top: str) -> Iterator:
    """The pages and the examples. A link to what isn't among them is its text alone."""
    kept = {*BESIDE, *(f"docs/{page}.md" for page in PAGES), *examples(top)}
    for path in sorted(kept):
        content, mode = bytes_of(f"{top}/{path}"), os.stat(f"{top}/{path}").st_mode
        if path.endswith(".md"):
            content = with_links_to(kept, os.path.dirname(path), content.decode()).encode()
        yield f"{DOC}/{path}", File(content, 0o755 if mode & 0o100 else 0o644)


def examples(top: str) -> Iterator[str]:
    for folder, _, names in os.walk(f"{top}/examples"):
        yield from (os.path.relpath(f"{folder}/{name}", top) for name in names if not name.endswith(".pyc"))


def with_links_to(kept, folder: str, text: str) -> str:
    def link(found):
        path = os.path.normpath(os.path.join(folder, found[3].partition("#")[0])) if not found[3].startswith("#") else None
        known = path is None or ":" in found[3] or path in kept or any(it.startswith(f"{path}/") for it in kept)
        return found[0] if known else found[2]

    return re.sub(r"(!?)\[([^\]\n]*)\]\(([^)\s]+)\)", link, text)


def manual_of(top: str, standing: Standing) -> str:
    words = ["rsp", *bytes_of(f"{top}/examples/first/words").decode().splitlines()]
    log, said = (bytes_of(f"{top}/examples/first/{name}").decode() for name in ("log", "stdout"))
    example = f"{' '.join(words)} < log\n\nThe log:\n\n{log}\nWhat is written:\n\n{said}"
    date = time.strftime("%Y-%m-%d", time.gmtime(standing.time))
    return manual(bytes_of(f"{top}/docs/REPORTS.md").decode(), example, standing.version, date)


def build_text(standing: Standing, files: Dict[str, File]) -> str:
    """By which kit the program was proved, from which commit, and the sums of all files, as `sha256sum -c` takes them in `/usr`."""
    head = [f"# rsp {standing.version}", f"# commit {standing.commit}", f"# proved with {standing.kit}"]
    sums = [f"{hashlib.sha256(it.content).hexdigest()}  {path}" for path, it in sorted(files.items()) if not it.link]
    return "\n".join([*head, *sums, ""])
