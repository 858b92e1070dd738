"""Proves and builds a goal, crate by crate, and says how far it is.

Each crate is worked at in one of some checkouts, in a folder of the user's cache, and what was built goes to all of them. What was
proved stays there, so a build that was broken off goes on. Two builds of the same sources wait for each other.
"""
import contextlib
import fcntl
import hashlib
import os
import re
import shutil
import signal
import subprocess
import sys
import tempfile
import time
from typing import Dict, Iterator, List, NamedTuple, Optional

from .checkouts import Checkout
from .failures import Failure
from .graph import Graph, graph_of
from .machine import share_of_machine
from .progress import Progress, Running, Taken, figures, told_time
from .schedule import Schedule, Start
from .seconds import note_seconds, seconds_known
from .sources import PROGRAM, PROVED_BY, Sources, bytes_of, is_current, sources_of

# the kit's line by which these sources were proved
KIT = "rattle-kit-13f logic dac8208d650f15bf"
PROGRAM_CRATE = "rsp_main"
# seconds between two looks at what runs, and the most between two lines
LOOK, QUIET = 0.1, 60
# how many lines of a refusal are said, and how long they may be
MOST_LINES, MOST_LETTERS = 8, 240
# lines of the kit that give no reason
NO_REASON = re.compile(r".*: proved$|statements |logic[ =]|crate |rt: waiting|note: to see how far|rattle build: nothing was built")


class Work(NamedTuple):
    """A crate that is worked at: where, with how many jobs, since when, and by which process."""

    crate: str
    jobs: int
    checkout: Checkout
    since: float
    process: subprocess.Popen


class Maker:
    """One build of one goal."""

    def __init__(self, top: str, cache: str, graph: Graph):
        self.top, self.cache, self.graph = top, cache, graph
        self.own_seconds = f"{cache}/seconds"
        known = seconds_known([f"{top}/bench/seconds", self.own_seconds], graph.below)
        share = share_of_machine()
        self.schedule, self.progress = Schedule(graph, known, share), Progress(graph, known, share)
        self.checkouts = [Checkout(f"{cache}/{number}") for number in range(share.crates)]
        self.works: Dict[int, Work] = {}
        self.program_at: Optional[Checkout] = None
        self.began = self.said = self.ended = time.monotonic()
        self.failed: List[str] = []

    def make(self, sources: Sources) -> None:
        """Proves and builds all of it, or fails with the first reason after what runs has ended."""
        for checkout in self.checkouts:
            checkout.take(sources)
        os.makedirs(f"{self.cache}/said", exist_ok=True)
        share = self.schedule.share
        say(f"proves and builds {len(self.graph.below)} crates, up to {share.crates} at a time, in {self.cache}: from nothing an hour "
            "or more on four processors, after an edit minutes; broken off, it goes on the next time")
        try:
            while not self.schedule.is_over() and (self.works or not self.failed):
                self.begin_ready()
                self.look()
        finally:
            self.end_all()
        self.ended = time.monotonic()
        if self.failed:
            raise Failure("\n".join(self.failed))

    def begin_ready(self) -> None:
        for start in [] if self.failed else self.schedule.starts():
            work = self.begun(start)
            self.works[work.process.pid] = work

    def begun(self, start: Start) -> Work:
        taken = [work.checkout for work in self.works.values()]
        free = [checkout for checkout in self.checkouts if checkout not in taken]
        checkout = max(free, key=lambda it: it.has_work(start.crate))
        words = ["run", "--jobs", str(start.jobs), "--", "events"] if start.crate == PROGRAM_CRATE else ["lib", "--jobs", str(start.jobs)]
        with open(self.said_of(start.crate), "wb") as said:
            process = subprocess.Popen(
                ["rt", *words], cwd=checkout.crate(start.crate), stdin=subprocess.DEVNULL, stdout=said, stderr=subprocess.STDOUT)
        return Work(start.crate, start.jobs, checkout, time.monotonic(), process)

    def look(self) -> None:
        """Takes what has ended, else waits a moment. After some time without a line, says what it is at."""
        pid, status, usage = os.wait4(-1, os.WNOHANG) if self.works else (0, 0, None)
        if pid in self.works:
            work = self.works.pop(pid)
            work.process.returncode = status
            self.end(work, status, usage.ru_utime + usage.ru_stime)
        elif time.monotonic() - self.said > QUIET:
            self.tell(f"at {', '.join(work.crate for work in self.works.values())}")
        else:
            time.sleep(LOOK)

    def end(self, work: Work, status: int, processor: float) -> None:
        clock = time.monotonic() - work.since
        if status:
            self.failed += [self.reason(work.crate)] if not self.failed else []
            say(f"{work.crate} failed" + (f"; waits for {len(self.works)} that are being proved" if self.works else ""))
            return
        self.schedule.end(work.crate)
        self.progress.taken[work.crate] = Taken(clock, processor, work.jobs)
        for checkout in self.checkouts:
            work.checkout.hand_over(work.crate, checkout)
        note_seconds(self.own_seconds, self.progress.measured())
        if work.crate == PROGRAM_CRATE:
            self.program_at = work.checkout
        self.tell(f"{work.crate} in {told_time(clock)}")

    def tell(self, what: str) -> None:
        now = time.monotonic()
        running = {work.crate: Running(now - work.since, work.jobs) for work in self.works.values()}
        self.said = now
        say(self.progress.line(running, now - self.began, what))

    def end_all(self) -> None:
        """Ends what still runs, where the build is broken off."""
        for work in self.works.values():
            work.process.terminate()
        for work in self.works.values():
            with contextlib.suppress(subprocess.TimeoutExpired):
                work.process.wait(timeout=10)

    def said_of(self, crate: str) -> str:
        return f"{self.cache}/said/{crate}"

    def reason(self, crate: str) -> str:
        with open(self.said_of(crate), encoding="utf-8", errors="replace") as said:
            lines = [line.rstrip()[:MOST_LETTERS] for line in said if line.strip() and not NO_REASON.match(line)]
        first = [f"  {line}" for line in lines[:MOST_LINES]]
        return "\n".join([f"{crate} isn't proved, so there is no program; what was proved stays", *first,
                          f"  all of it: {self.said_of(crate)}"])

    def install(self, sources: Sources, kit: str) -> None:
        """Puts the program where ./rsp runs it, as old as the reading of its sources: what was edited since is newer."""
        if self.program_at is None:
            raise Failure("no program was built")
        made = f"{self.program_at.folder}/{PROGRAM}"
        os.makedirs(os.path.dirname(f"{self.top}/{PROGRAM}"), exist_ok=True)
        for end in ("", ".stamp"):
            if os.path.exists(f"{made}{end}"):
                put(f"{made}{end}", f"{self.top}/{PROGRAM}{end}", sources.read_at)
        with open(f"{self.top}/{PROVED_BY}", "w", encoding="utf-8") as mark:
            mark.write(f"{hashlib.sha256(bytes_of(made)).hexdigest()} {kit}\n")

    def processor(self) -> Dict[str, float]:
        """The processor seconds that each crate took in this build."""
        return {crate: it.processor for crate, it in self.progress.taken.items()}

    def figures(self) -> str:
        return figures(self.graph, self.processor(), self.ended - self.began)


def put(source: str, target: str, time_ns: int) -> None:
    """Copies a file over another in one step, so that whoever runs the old one keeps it."""
    with tempfile.TemporaryDirectory(prefix="new-", dir=os.path.dirname(target)) as room:
        new = shutil.copy2(source, f"{room}/new")
        os.utime(new, ns=(time_ns, time_ns))
        os.replace(new, target)


def cache_home() -> str:
    """The folder in the user's cache below which all builds are."""
    return f"{os.environ.get('XDG_CACHE_HOME') or os.path.expanduser('~/.cache')}/rsp-build"


def cache_of(top: str) -> str:
    """The folder in which these sources are built: one for each place where such sources lie."""
    return f"{cache_home()}/{hashlib.sha256(os.fsencode(top)).hexdigest()[:12]}"


@contextlib.contextmanager
def in_turn(cache: str) -> Iterator[bool]:
    """Waits until no other build is in the folder, and gives whether it had to wait."""
    os.makedirs(cache, exist_ok=True)
    with open(f"{cache}/lock", "w", encoding="utf-8") as lock:
        has_waited = False
        try:
            fcntl.flock(lock, fcntl.LOCK_EX | fcntl.LOCK_NB)
        except BlockingIOError:
            has_waited = True
            say("another ./rsp builds these sources: waits for it")
            fcntl.flock(lock, fcntl.LOCK_EX)
        yield has_waited


def kit_of_path() -> str:
    """The line of the kit; says where its logic is another than the one by which the sources were proved."""
    said = subprocess.run(["rt", "version"], stdout=subprocess.PIPE, stderr=subprocess.DEVNULL, check=False).stdout
    line = said.decode(errors="replace").strip()
    if line.partition(" logic ")[2] != KIT.partition(" logic ")[2]:
        say(f"rt is `{line}`, and these sources were proved with `{KIT}`: under another logic proofs may fail")
    return line


def build(top: str, goal: str = PROGRAM_CRATE) -> Optional[Maker]:
    """Proves and builds the goal; the program is put into its place. Gives what was done, None where another build did it."""
    cache = cache_of(top)
    with in_turn(cache) as has_waited:
        if has_waited and goal == PROGRAM_CRATE and is_current(top):
            return None
        kit = kit_of_path()
        sources = sources_of(top, time.time_ns())
        crates = sources.files.get("crates.txt", b"").decode(errors="replace")
        maker = Maker(top, cache, graph_of(crates, goal))
        maker.make(sources)
        if goal == PROGRAM_CRATE:
            maker.install(sources, kit)
        return maker


def say(text: str) -> None:
    for line in text.splitlines():
        print(f"rsp: {line}", file=sys.stderr, flush=True)


def broken_off(*_) -> None:
    raise KeyboardInterrupt


def main(words: List[str]) -> int:
    """Builds the program of the folder that is named. The status is 0 where it stands in its place."""
    signal.signal(signal.SIGTERM, broken_off)
    try:
        maker = build(os.path.realpath(words[0]))
        if maker:
            say(maker.figures())
        return 0
    except Failure as why:
        say(str(why))
    except OSError as why:
        say(f"{why.filename or 'the build'}: {why.strerror or why}")
    except KeyboardInterrupt:
        say("broken off; what was proved stays, and ./rsp goes on with it")
    return 1
