"""What is kept of a query: its last report, or the rows that have come of late, and its charts."""
from collections import deque
from typing import List, NamedTuple, Optional

from .charts import Charts
from .terms import Cell, cell, cut

MOST_NEWS = 100


class News(NamedTuple):
    """A row that came: its number among all rows of the query, its report's instant, its cells, and when it came, in seconds."""

    number: int
    at: int
    cells: List[Optional[Cell]]
    came: float


class Panel:
    """A query. Its reports add up where the words say that they are news, and else the last one stands."""

    def __init__(self, name, place, words):
        self.name, self.place = name, place
        self.is_news, self.is_alarm, self.most_rows = name in words.news, name in words.alarms, words.rows
        self.reports = self.rows = self.all_rows = 0
        self.at = self.anew = self.overfull = None
        self.variables, self.cells = (), []
        self.news, self.charts = deque(maxlen=MOST_NEWS), Charts(words.points)
        self.points = words.points

    def take(self, report, now):
        """Takes a report that came now. Where it has other columns than the one before, all begins anew."""
        if self.reports and report.variables != self.variables:
            self.news.clear()
            self.charts, self.anew = Charts(self.points), report.at
        self.variables, self.at, self.overfull = report.variables, report.at, None
        self.reports += 1
        self.rows = len(report.rows)
        if self.is_news:
            self.add(report, now)
        else:
            self.cells = [self.cells_of(row) for row in report.rows[:self.most_rows]]
        self.all_rows += self.rows
        self.charts.take(report)

    def add(self, report, now):
        """Adds the rows of a report to the news, the newest in front."""
        rows = list(enumerate(report.rows, self.all_rows + 1))[-MOST_NEWS:]
        self.news.extendleft(News(number, report.at, self.cells_of(row), now) for number, row in rows)

    def cells_of(self, row):
        return [cell(row.get(name)) for name in self.variables]

    def shown(self):
        """All that the page shows of it."""
        return {
            "name": self.name, "place": self.place, "kind": "alarm" if self.is_alarm else "news" if self.is_news else "last",
            "at": self.at, "variables": list(map(cut, self.variables)), "reports": self.reports, "rows": self.rows,
            "all": self.all_rows, "cells": self.cells, "news": list(self.news), "anew": self.anew, "overfull": self.overfull,
            **self.charts.shown(),
        }
