"""Refusals of one cause that come in a row: where they are many they are one finding, with their number."""
import re

from .differing import Differs

# up to so many are told one by one
MOST_ALIKE = 9


def in_runs(findings):
    """The findings, and of more than nine in a row of one cause the first, which says how many there are."""
    run = []
    for finding in findings:
        if run and cause_of(finding) != cause_of(run[0]):
            yield from told(run)
            run = []
        run.append(finding)
    yield from told(run)


def told(run):
    if len(run) <= MOST_ALIKE or isinstance(run[0], Differs):
        return run
    first, last = run[0], run[-1]
    more = f"{len(run)} refusals in a row, up to line {last.place.line}, have this cause"
    return [first._replace(said=f"{first.said.rstrip('.')}; {more}")]


def cause_of(finding):
    """What a refusal comes of: its file, its kind and what is said, apart from what the line itself has."""
    if isinstance(finding, Differs):
        return finding
    said, write = (re.sub("`[^`]*`|[0-9]+", "", text) for text in (finding.said, finding.write))
    return finding.place.file, finding.kind, said, write
