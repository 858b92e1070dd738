"""Which crate is next: of those that stand on proved ones alone, the one from which the longest chain goes up to the goal."""
from typing import Dict, List, Mapping, NamedTuple, Set

from .graph import Graph
from .machine import Share


class Start(NamedTuple):
    """A crate that is to be begun, with so many jobs."""

    crate: str
    jobs: int


class Schedule:
    """What is left, what is being worked at and with how many jobs, and what is done."""

    def __init__(self, graph: Graph, seconds: Mapping[str, float], share: Share):
        self.graph, self.share = graph, share
        self.left = {crate: chain.seconds for crate, chain in graph.chains(seconds).items()}
        self.running: Dict[str, int] = {}
        self.done: Set[str] = set()

    def is_over(self) -> bool:
        return len(self.done) == len(self.graph.below)

    def ready(self) -> List[str]:
        """Those that can be begun, the longest chain first."""
        begun = self.done | set(self.running)
        waiting = (crate for crate in self.graph.below if crate not in begun)
        able = (crate for crate in waiting if self.done.issuperset(self.graph.below[crate]))
        return sorted(able, key=lambda crate: (-self.left[crate], crate))

    def starts(self) -> List[Start]:
        """Begins as many as there is room for. They share the jobs that are free, so one that is alone gets all of them."""
        begun = []
        for crate in self.ready()[: self.share.crates - len(self.running)]:
            free = self.share.jobs - sum(self.running.values())
            if free < 1:
                break
            places = min(len(self.ready()), self.share.crates - len(self.running))
            self.running[crate] = -(-free // places)
            begun.append(Start(crate, self.running[crate]))
        return begun

    def end(self, crate: str) -> None:
        del self.running[crate]
        self.done.add(crate)
