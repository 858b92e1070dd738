"""The crates that a goal is made of, which of them stand on which, and the longest chain of them."""
from typing import Dict, List, Mapping, NamedTuple

from .failures import Failure


class Chain(NamedTuple):
    """Crates that each stand on the one before, and the sum of their seconds."""

    crates: List[str]
    seconds: float


class Graph:
    """A goal and all below it. `below` has for each of them those that it stands on, without the kit's."""

    def __init__(self, goal: str, below: Dict[str, List[str]]):
        self.goal, self.below = goal, below
        self.above: Dict[str, List[str]] = {crate: [] for crate in below}
        for crate, lower in below.items():
            for other in lower:
                self.above[other].append(crate)

    def chains(self, seconds: Mapping[str, float]) -> Dict[str, Chain]:
        """For each crate the longest chain from it up to the goal. A crate without seconds takes none."""
        found: Dict[str, Chain] = {}
        for crate in reversed(self.lowest_first()):
            longest = max((found[other] for other in self.above[crate]), key=lambda it: it.seconds, default=Chain([], 0))
            found[crate] = Chain([crate, *longest.crates], seconds.get(crate, 0) + longest.seconds)
        return found

    def longest_chain(self, seconds: Mapping[str, float]) -> Chain:
        return max(self.chains(seconds).values(), key=lambda it: it.seconds)

    def lowest_first(self) -> List[str]:
        """All crates, each after those that it stands on."""
        placed: List[str] = []
        left = dict(self.below)
        while left:
            ready = [crate for crate, lower in left.items() if not any(other in left for other in lower)]
            if not ready:
                raise Failure(f"crates.txt has crates that stand on each other: {', '.join(sorted(left))}")
            placed += ready
            left = {crate: lower for crate, lower in left.items() if crate not in ready}
        return placed


def graph_of(text: str, goal: str) -> Graph:
    """The graph of a goal, by the text of crates.txt."""
    lines = (line.partition("#")[0].partition(":") for line in text.splitlines())
    uses = {head.split()[0]: tail.split() for head, colon, tail in lines if colon and head.split()}
    if goal not in uses:
        raise Failure(f"crates.txt has no crate {goal}")
    below: Dict[str, List[str]] = {}
    todo = [goal]
    while todo:
        crate = todo.pop()
        if crate not in below:
            below[crate] = [other for other in uses[crate] if other in uses]
            todo += below[crate]
    return Graph(goal, below)
