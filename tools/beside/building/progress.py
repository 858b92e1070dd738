"""How far a build is, how long the rest takes at this speed, and what it took in the end."""
from typing import Dict, List, Mapping, NamedTuple

from .graph import Graph
from .machine import Share
from .seconds import is_measured

# of what is known of a crate, the part that counts as done at most while it is still worked at
MOST_OF_RUNNING = 0.95


class Taken(NamedTuple):
    """What a crate took: seconds by the clock, processor seconds, and its jobs."""

    clock: float
    processor: float
    jobs: int


class Running(NamedTuple):
    """A crate that is worked at: the seconds by the clock so far, and its jobs."""

    clock: float
    jobs: int


class Progress:
    """What is known of each crate beforehand, and what was seen since."""

    def __init__(self, graph: Graph, known: Mapping[str, float], share: Share):
        self.graph, self.known, self.share = graph, known, share
        self.taken: Dict[str, Taken] = {}

    def slowness(self, running: Mapping[str, Running]) -> float:
        """How many seconds by the clock went by for each second that was known: over the crates that were measured, and those that
        are worked at for longer than was known."""
        seen = [(crate, it) for crate, it in self.taken.items() if is_measured(it.processor, self.known[crate])]
        seen += [(crate, it) for crate, it in running.items() if it.clock * it.jobs > self.known[crate]]
        known = sum(self.known[crate] / it.jobs for crate, it in seen)
        return sum(it.clock for _, it in seen) / known if known else 1.0

    def left(self, running: Mapping[str, Running]) -> Dict[str, float]:
        """The seconds that are left of each crate, by what is known."""
        left = {crate: seconds for crate, seconds in self.known.items() if crate not in self.taken}
        slowness = self.slowness(running)
        for crate, it in running.items():
            done = it.clock * it.jobs / slowness
            left[crate] -= min(done, left[crate] * MOST_OF_RUNNING)
        return left

    def seconds_left(self, running: Mapping[str, Running]) -> float:
        """As long as the longest chain of what is left takes, or all of it on all processors, whichever is more."""
        left = self.left(running)
        return self.slowness(running) * max(self.graph.longest_chain(left).seconds, sum(left.values()) / self.share.jobs)

    def line(self, running: Mapping[str, Running], clock: float, what: str) -> str:
        whole = sum(self.known.values())
        part = 1 - sum(self.left(running).values()) / whole if whole else 1
        counted = f"{len(self.taken)} of {len(self.known)} crates, {part:.0%} of the work, after {told_time(clock)}"
        rest = self.seconds_left(running)
        return f"{counted}: {what}" + (f"; some {told_time(rest)} are left" if len(self.taken) < len(self.known) else "")

    def measured(self) -> Dict[str, float]:
        """The processor seconds of the crates that were proved here, for the next time."""
        return {crate: it.processor for crate, it in self.taken.items() if is_measured(it.processor, self.known[crate])}


def figures(graph: Graph, processor: Mapping[str, float], clock: float) -> str:
    """What a build took: by the clock, on processors, and against its longest chain, below which no order of crates comes."""
    chain = graph.longest_chain(processor)
    ratio = f"{clock / chain.seconds:.2f} times the {told_time(chain.seconds)} of the longest chain" if chain.seconds else "no time"
    return f"{len(graph.below)} crates in {told_time(clock)}: {ratio}; {sum(processor.values()) / 60:.1f} processor minutes"


def longest_first(processor: Mapping[str, float]) -> List[str]:
    """The crates and what they took, a crate a line, the dearest first."""
    return [f"{'crate':<24}{'proof':>9}  seconds of a processor", *(
        f"{crate:<24}{seconds:>9.1f}" for crate, seconds in sorted(processor.items(), key=lambda it: -it[1]))]


def chain_rows(graph: Graph, processor: Mapping[str, float]) -> List[str]:
    """The longest chain, a crate a line, with those marked that take more than a tenth of it, and its sum."""
    chain = graph.longest_chain(processor)
    rows = [f"{'the longest chain':<24}{'proof':>9}"]
    for crate in chain.crates:
        seconds = processor.get(crate, 0)
        rows.append(f"{crate:<24}{seconds:>9.1f}{'  more than a tenth' if seconds > chain.seconds / 10 else ''}")
    return [*rows, f"{'its sum':<24}{chain.seconds:>9.1f}"]


def told_time(seconds: float) -> str:
    whole = int(seconds + 0.5)
    return f"{whole} s" if whole < 120 else f"{whole // 60} min {whole % 60} s"
