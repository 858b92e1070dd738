"""How `./rsp` orders the crates, and what it says of the time: on graphs and seconds that are made up."""
import os
import sys
import tempfile

from documents import TOP

sys.path.insert(0, f"{TOP}/tools")
from beside.building.checkouts import Checkout  # noqa: E402
from beside.building.failures import Failure  # noqa: E402
from beside.building.graph import graph_of  # noqa: E402
from beside.building.machine import Share  # noqa: E402
from beside.building.making import KIT  # noqa: E402
from beside.building.progress import Progress, Running, Taken, chain_rows, figures  # noqa: E402
from beside.building.schedule import Schedule, Start  # noqa: E402
from beside.building.seconds import note_seconds, seconds_known  # noqa: E402
from beside.building.sources import Sources  # noqa: E402

# two chains from the bottom to the top, of which the one through `c` is longer, and a crate of tests
CRATES = "# crates\ntop may_abort=1: b c d std\ntests: top\na:\nb: a\nc: a\nd: c\ne: a\n"
SECONDS_OF = {"top": 10.0, "a": 10.0, "b": 15.0, "c": 10.0, "d": 10.0}


def unlike(got, wanted):
    return None if got == wanted else f"it is {got}, and {wanted} is wanted"


def orders():
    """Which crates are begun, one after the other, and with how many jobs."""
    graph = graph_of(CRATES, "top")
    yield "what the goal is made of", unlike(sorted(graph.below), ["a", "b", "c", "d", "top"])
    schedule = Schedule(graph, SECONDS_OF, Share(2, 4))
    seen = [schedule.starts()]
    for ended in ("a", "c", "d", "b", "top"):
        schedule.end(ended)
        seen.append(schedule.starts())
    begun = [[Start("a", 4)], [Start("c", 2), Start("b", 2)], [Start("d", 2)], [], [Start("top", 4)], []]
    yield "the longest chain first, and all jobs for a crate alone", unlike(seen, begun)
    yield "all are over", unlike(schedule.is_over(), True)
    schedule = Schedule(graph, SECONDS_OF, Share(1, 1))
    schedule.starts()
    schedule.end("a")
    yield "one at a time", unlike([schedule.starts(), schedule.starts()], [[Start("c", 1)], []])


def failures():
    """Texts of crates that have no order."""
    for name, text, why in [
        ("a ring", "top: a\na: b\nb: a\n", "crates.txt has crates that stand on each other: a, b, top"),
        ("no goal", "a:\n", "crates.txt has no crate top"),
        ("nothing", "", "crates.txt has no crate top"),
    ]:
        try:
            graph_of(text, "top").lowest_first()
            yield name, "it has an order"
        except Failure as failure:
            yield name, unlike(str(failure), why)


def times():
    """What is said of the time: before anything ran, within a run that is half as fast as was known, and at the end."""
    graph = graph_of(CRATES, "top")
    progress = Progress(graph, SECONDS_OF, Share(2, 2))
    yield "the first line", unlike(progress.line({}, 0, "a"), "0 of 5 crates, 0% of the work, after 0 s: a; some 40 s are left")
    progress.taken["a"] = Taken(20.0, 20.0, 1)
    line = progress.line({"c": Running(10.0, 1)}, 30.0, "c")
    yield "half as fast", unlike(line, "1 of 5 crates, 27% of the work, after 30 s: c; some 50 s are left")
    late = progress.line({"c": Running(200.0, 1)}, 220.0, "c")
    yield "a crate that takes far longer", unlike(late.partition(";")[0], "1 of 5 crates, 35% of the work, after 220 s: c".replace("220 s", "3 min 40 s"))
    yield "figures", unlike(figures(graph, SECONDS_OF, 60.0), "5 crates in 60 s: 1.50 times the 40 s of the longest chain; 0.9 processor minutes")
    yield "no figures", unlike(figures(graph, {}, 1.0), "5 crates in 1 s: no time; 0.0 processor minutes")
    rows = [row.split()[0] for row in chain_rows(graph, SECONDS_OF)]
    yield "the chain", unlike(rows, ["the", "a", "c", "d", "top", "its"])


def kept():
    """Seconds and libraries that are kept."""
    with tempfile.TemporaryDirectory(prefix="rsp-kept-") as folder:
        path = f"{folder}/seconds"
        with open(path, "wb") as file:
            file.write(b"a 1.5\nb x\nc 2 3\n\xff\nd 7\n")
        note_seconds(path, {"d": 8.25, "e": 1})
        known = seconds_known([f"{folder}/none", path], ["a", "b", "c", "d", "e"])
        yield "seconds", unlike(known, {"a": 1.5, "b": 60.0, "c": 60.0, "d": 8.2, "e": 1.0})
        one, other = Checkout(f"{folder}/1"), Checkout(f"{folder}/2")
        for checkout in (one, other):
            checkout.take(Sources(0, {"crates.txt": b"a:\n", "crates/a/src/lib.rt": b"1", "crates/a/src/old.rt": b""}))
        os.makedirs(one.library("a"))
        one.hand_over("a", other)
        yield "no library to hand over", unlike(other.stamp("a"), None)
        for name in ("stamp", "lib"):
            with open(f"{one.library('a')}/{name}", "w") as file:
                file.write(name)
        one.hand_over("a", other)
        yield "a library that is handed over", unlike((other.stamp("a"), os.listdir(f"{other.crate('a')}/out")), (one.stamp("a"), ["rlib"]))
        one.take(Sources(0, {"crates.txt": b"a:\n", "crates/a/src/lib.rt": b"2"}))
        left = sorted(name for _, _, names in os.walk(one.folder) for name in names)
        yield "sources that are taken anew", unlike(left, ["crates.txt", "lib", "lib.rt", "stamp"])


def checks():
    """Each check as its name and what it found wrong."""
    with open(f"{TOP}/README.md", encoding="utf-8") as readme:
        yield "README names the kit", None if KIT in readme.read() else f"it doesn't name {KIT}"
    for name, wrong in [*orders(), *failures(), *times(), *kept()]:
        yield f"building: {name}", wrong
