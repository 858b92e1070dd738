"""How much of the machine a build may take."""
import os
import re
from typing import NamedTuple, Optional

# bytes of memory that a crate takes with its first job, and with each further one
FIRST_JOB, FURTHER_JOB = 2_400_000_000, 1_200_000_000


class Share(NamedTuple):
    """How many crates may be worked at side by side, and how many jobs all of them have together."""

    crates: int
    jobs: int


def share_of_machine() -> Share:
    free, processors = free_memory(), processors_of_this_process()
    if free is None:
        return Share(processors, processors)
    crates = max(1, min(processors, free // FIRST_JOB))
    further = max(0, free - crates * FIRST_JOB) // FURTHER_JOB
    return Share(crates, max(1, min(processors, crates + further)))


def processors_of_this_process() -> int:
    """The processors that it may run on, and no more than a control group lets it have."""
    found = len(os.sched_getaffinity(0))
    quota = re.match(r"(\d+) (\d+)", text_of("/sys/fs/cgroup/cpu.max"))
    return min(found, max(1, int(quota[1]) // int(quota[2]))) if quota else found


def free_memory() -> Optional[int]:
    """The bytes that can be had, None where the system doesn't tell."""
    told = re.search(r"^MemAvailable:\s+(\d+) kB", text_of("/proc/meminfo"), re.M)
    limit, held = (text_of(f"/sys/fs/cgroup/memory.{name}").strip() for name in ("max", "current"))
    bounds = [int(told[1]) * 1024] if told else []
    bounds += [max(0, int(limit) - int(held))] if limit.isdigit() and held.isdigit() else []
    return min(bounds, default=None)


def text_of(path: str) -> str:
    """The text of a file of the system, empty where there is none."""
    try:
        with open(path, encoding="utf-8", errors="replace") as file:
            return file.read()
    except OSError:
        return ""
