"""The charts of a query: for each numeric column and each group a line over the times of the last reports."""
from collections import Counter, deque
from typing import Dict, NamedTuple, Optional, Tuple

from .terms import cell, is_number, key, point

MOST_CHARTS, MOST_LINES = 3, 12


class Sample(NamedTuple):
    """What one report adds: for each group the numbers of the drawn columns, as texts."""

    at: int
    columns: Tuple[str, ...]
    values: Dict[tuple, Tuple[Optional[str], ...]]

    def value(self, group, column):
        """The number at a line's point; None where there is none."""
        there = column in self.columns and group in self.values
        return self.values[group][self.columns.index(column)] if there else None


class Charts:
    """The last reports of a query as lines. Columns are numeric as long as all that they had are numbers; the texts of those
    that had something else are a row's group. A line is kept as long as one of these reports has its group.
    """

    def __init__(self, points):
        self.points = points
        self.numeric, self.keys = {}, ()
        self.clear()

    def clear(self):
        """Begins anew, with the columns as they are known."""
        self.samples, self.labels, self.uses = deque(), {}, Counter()
        self.undrawn, self.doubled, self.further = 0, 0, 0

    def take(self, report):
        """Takes a report; lines begin anew where a column turns out to belong to the group."""
        self.learn(report)
        keys = tuple(name for name in report.variables if self.numeric.get(name) is False)
        if keys != self.keys:
            self.keys = keys
            self.clear()
        numeric = [name for name in report.variables if self.numeric.get(name)]
        self.further = len(numeric[MOST_CHARTS:])
        if len(self.samples) == self.points:
            self.forget()
        self.samples.append(Sample(report.at, tuple(numeric[:MOST_CHARTS]), self.drawn(report, numeric[:MOST_CHARTS])))

    def learn(self, report):
        """Learns which columns have numbers alone."""
        for row in report.rows:
            for name, term in row.items():
                if self.numeric.get(name) is not False:
                    self.numeric[name] = is_number(term)

    def forget(self):
        """Forgets the oldest sample, and the lines that had their last point there."""
        for group in self.samples.popleft().values:
            self.uses[group] -= 1
            if not self.uses[group]:
                del self.uses[group], self.labels[group]

    def drawn(self, report, columns):
        """The numbers of each line that this report has. Of rows with one group the first is drawn."""
        values, undrawn, self.doubled = {}, set(), 0
        for row in report.rows if columns else ():
            group = tuple(key(row.get(name)) for name in self.keys)
            if group in values:
                self.doubled += 1
            elif group in self.uses or len(self.uses) < MOST_LINES:
                values[group] = tuple(point(row.get(name)) for name in columns)
                self.use(group, row)
            else:
                undrawn.add(group)
        self.undrawn = len(undrawn)
        return values

    def use(self, group, row):
        self.uses[group] += 1
        cells = [cell(row[name]) for name in self.keys if name in row]
        self.labels[group] = " · ".join(its.text for its in cells), " ".join(its.whole for its in cells)

    def shown(self):
        """The charts as the page has them, and how much isn't drawn."""
        columns = self.samples[-1].columns if self.samples else ()
        return {
            "times": [sample.at for sample in self.samples], "undrawn": self.undrawn, "doubled": self.doubled,
            "further": self.further, "charts": [{"column": column, "lines": self.lines(column)} for column in columns],
        }

    def lines(self, column):
        """The lines of a column, each with its label and as many values as there are times."""
        return [
            {"label": label, "whole": whole, "values": [sample.value(group, column) for sample in self.samples]}
            for group, (label, whole) in self.labels.items()
        ]
