"""Random logs whose queries split by `?s`, over the parts of a stream: the outputs of the parts, put together, are byte for byte
that of the whole.

What `tools/split` lets through is asked, and nothing else; what comes close to it is written often, so that a rule that lets too
much through is seen. A log has all that a random log has: faults, what is stored, cancellations, ticks, a slack.
"""
import importlib.machinery
import importlib.util
import io
import os
import sys

TOP = os.path.dirname(os.path.dirname(os.path.realpath(__file__)))
sys.path.insert(0, f"{TOP}/tools")
import beside  # noqa: E402,F401
import query_model  # noqa: E402
import shape_model  # noqa: E402
from beside.merging import Ended, Part, merged  # noqa: E402
from beside.parting import parted  # noqa: E402
from beside.splitting import Rule  # noqa: E402
from policy_model import is_mixed, policy_of  # noqa: E402
from random_queries import NAMES, PREDICATES, QueryWriter  # noqa: E402

KEY = "s"


def writer_of_logs():
    """The class that writes the logs of tests/random-logs, which is a script."""
    loader = importlib.machinery.SourceFileLoader("random_logs", f"{TOP}/tests/random-logs")
    module = importlib.util.module_from_spec(importlib.util.spec_from_loader("random_logs", loader))
    loader.exec_module(module)
    return module.Writer


class SplitWriter(QueryWriter):
    """Writes a query most of which splits by `?s`: each part of it is out of the rule with a small chance."""

    def __init__(self, *values):
        super().__init__(*values)
        self.is_in_window = False

    def strays(self):
        return self.chance(0.03)

    # ---- triples: those of a window have the variable as their subject

    def looked_for(self, is_in_window, write, *values):
        before, self.is_in_window = self.is_in_window, is_in_window
        try:
            return write(*values)
        finally:
            self.is_in_window = before

    def window(self, seen, depth):
        return self.looked_for(True, super().window, seen, depth)

    def graph(self, seen, depth):
        return self.looked_for(False, super().graph, seen, depth)

    def is_strict(self):
        return self.is_in_window and not self.strays()

    def subject(self, seen):
        return self.noted(KEY, seen) if self.is_strict() else super().subject(seen)

    def node(self, seen):
        text = super().node(seen)
        while self.is_in_window and "[ " in text and not self.strays():
            text = super().node(seen)
        return text

    def verb(self, seen):
        if not self.is_strict() or self.chance(0.1):
            return super().verb(seen)
        one, other = (self.dice.choice(PREDICATES) for _ in range(2))
        return one if self.chance(0.8) else f"{one}|{other}"

    def triple(self, seen):
        if self.is_in_window and self.chance(0.08):
            one, name = self.dice.choice(PREDICATES), self.noted(self.dice.choice(NAMES), seen)
            middle = f"{one}/^{self.dice.choice(PREDICATES)}" if self.chance(0.3) else f"^{one}"
            return f"{self.noted(KEY, seen) if '/' in middle else name} {middle} {self.noted(KEY, seen)}"
        return super().triple(seen)

    def kinds(self, depth, is_inside, role):
        """Fewer filters, so that more rows come through."""
        return {**super().kinds(depth, is_inside, role), "filter": 0.6}

    # ---- selects: they show the variable, and it is a key

    def plain(self, seen):
        items, tail, shown = super().plain(seen)
        if KEY in seen and items != ["*"] and KEY not in shown and not self.strays():
            items, shown = [f"?{KEY}", *items], [KEY, *shown]
        return items, tail, shown

    def grouped(self, seen):
        items, tail, shown = super().grouped(seen)
        if KEY not in seen or self.strays():
            return items, tail, shown
        if f"?{KEY}" not in tail.split(" HAVING ")[0].split(" "):
            tail = f" GROUP BY ?{KEY}{tail[len(' GROUP BY'):] if tail.startswith(' GROUP BY') else tail}"
        if KEY not in shown and not self.chance(0.2):
            items, shown = [f"?{KEY}", *items], [KEY, *shown]
        return items, tail, shown

    def whole(self):
        """All triples of all windows."""
        parts = [f"{{ WINDOW {name} {{ ?{KEY} ?p ?o }} BIND({name} AS ?w) }}" for name in self.windows]
        return f"SELECT ?w ?{KEY} ?p ?o", f"{{ {' UNION '.join(parts)} }}"

    # ---- policies: mostly those that go by instants alone

    def policy(self):
        if self.strays():
            return super().policy()
        names = self.dice.choice([["CLOSE"]] * 5 + [["CLOSE", "EVERY"], ["EVERY", "CLOSE"]] + [["EVERY"]] * (self.scale != "far"))
        return f"REPORT {' AND '.join(map(self.strategy, names))} TICK TIME"


# ---- logs


def is_split(text):
    """Whether the text has a fault, which all parts tell alike, or splits by the variable."""
    try:
        query = query_model.parse(text)
    except query_model.Refused:
        return True
    return bool(shape_model.fault(query)) or is_mixed(policy_of(query["policy"])) or not Rule(query, text, KEY).obstacles()


def query(writer):
    """A text that splits, or has a fault."""
    while True:
        text = SplitWriter(writer.dice, writer.fault, writer.scale, writer.is_storing).text()
        if is_split(text):
            return text


def random_log(dice, writer_class):
    """A log, the slack that it is written for, and how many parts it has."""
    writer = writer_class(dice)
    while writer.is_crowded:
        writer = writer_class(dice)
    writer.query, writer.changed = lambda: query(writer), lambda text: text
    return writer.log(), writer.slack, dice.choice([2, 3, 4, 5])


def logs_of_parts(log, count):
    return [b"".join(texts) for texts in zip(*parted(io.BytesIO(log), count))] or [b""] * count


def put_together(outputs):
    """The outputs of the parts as one, and behind it what is said beside it, if anything is."""
    said = []
    parts = [Part(number, iter(io.BytesIO(output))) for number, output in enumerate(outputs)]
    pieces = []
    try:
        pieces.extend(merged(parts, said.append))
    except Ended as why:
        said.append(str(why))
    return b"".join(pieces) + "".join(f"merge: {text}\n" for text in said).encode()


def fault_of_parts(log, count, run):
    """Where the parts of a log, put together, aren't the whole, or None. `run` gives the output and the status of a log."""
    wanted, outputs = run(log), [run(part) for part in logs_of_parts(log, count)]
    given = put_together([output for output, *_ in outputs]), *max(rest for _, *rest in outputs)
    return None if given == tuple(wanted) else f"{log!r}\nthe whole: {wanted}\n{count} parts: {given}"
