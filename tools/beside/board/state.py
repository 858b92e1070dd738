"""All that the board keeps of its input, within limits, and what has changed of it."""
import os
import threading
import time

from .. import refusals
from .panels import Panel
from .sayings import Bad, Graph, Report, saying

MOST_QUERIES = 64
# of a line that can't be shown this many signs are
MOST_SHOWN = 200


class Board:
    """What has come. One thread takes lines, another one asks what has changed; `changes` is set where there is something."""

    def __init__(self, words):
        self.words, self.run = words, f"{os.getpid()}-{time.time_ns()}"
        self.lock, self.changes = threading.Lock(), threading.Event()
        self.panels, self.changed = {}, set()
        self.input, self.last = "open", None
        self.lines = self.reports = self.others = self.graphs = self.overfull = 0
        self.refused, self.lacking = {}, None
        self.bad, self.bad_line = 0, None
        self.changes.set()

    def take(self, line):
        """Takes a line."""
        said, now = saying(line), time.time()
        with self.lock:
            self.lines += 1
            self.last = now
            self.sort(said, line, now)
        self.changes.set()

    def sort(self, said, line, now):
        """Counts what was said, and shows it where it belongs."""
        if isinstance(said, Report):
            self.reports += 1
            self.take_report(said, now)
        elif isinstance(said, Graph):
            self.graphs += 1
        elif isinstance(said, Bad):
            self.bad += 1
            self.bad_line = {"why": said.why, "number": self.lines, "text": front(line.content)}
        elif isinstance(said, refusals.Overfull):
            self.overfull += 1
            self.take_overfull(said)
        else:
            self.take_refusal(said.text)

    def take_report(self, report, now):
        panel = self.panel(report.query)
        if panel is None:
            self.others += 1
        else:
            panel.take(report, now)

    def take_overfull(self, said):
        panel = self.panel(said.name)
        if panel is not None:
            panel.overfull = said.time

    def take_refusal(self, text):
        kind, details = refusals.kind_of(text), refusals.details_of(text)
        self.refused[kind] = self.refused.get(kind, 0) + 1
        if kind == "15 Late":
            self.lacking = max(self.lacking or 0, details["next"] - details["time"])

    def panel(self, name):
        """The panel of a query, which is about to change; None where there are as many as can be."""
        if name not in self.panels:
            if len(self.panels) == MOST_QUERIES:
                return None
            self.panels[name] = Panel(name, len(self.panels), self.words)
        self.changed.add(name)
        return self.panels[name]

    def end(self, why):
        """No more lines come, for the reason that is told."""
        with self.lock:
            self.input = why
        self.changes.set()

    def take_changed(self):
        """The names of the queries that have changed since this was asked before."""
        with self.lock:
            changed, self.changed = sorted(self.changed), set()
        return changed

    def panel_shown(self, name):
        with self.lock:
            return self.panels[name].shown()

    def top(self):
        """What stands above all queries."""
        with self.lock:
            return {
                "run": self.run, "title": self.words.title, "queries": len(self.panels), "others": self.others,
                "reports": self.reports, "overfull": self.overfull, "lines": self.lines, "graphs": self.graphs,
                "refused": sorted(self.refused.items(), key=lambda item: refusals.number_of(item[0])),
                "lacking": self.lacking, "bad": self.bad, "badLine": self.bad_line, "last": self.last, "input": self.input,
                "waiting": sorted(self.words.news - set(self.panels)), "points": self.words.points,
            }


def front(content):
    """How a line begins that can't be shown."""
    text = content[:4 * MOST_SHOWN].decode("utf-8", "replace")
    return text if len(text) <= MOST_SHOWN and len(content) <= 4 * MOST_SHOWN else f"{text[:MOST_SHOWN]}…"
