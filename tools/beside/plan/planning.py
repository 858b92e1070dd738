"""`tools/plan`: what a query does, before it runs.

    tools/plan check QUERY
    tools/plan run [--json] [--store FILE] QUERY STREAM=FILE..
    tools/plan events [--json] [--slack N] < LOG
"""
import itertools

from algebra_model import translated
from policy_model import policy_of, window_of

from .. import recordings
from ..inputs import complain, file_of, name_of_input, opened
from ..limits import SECONDS, within_limits
from ..linting import course_of_log, course_of_run, faults_of_files, in_order, looked_at
from ..of_texts import of_text
from ..places import Text
from ..runs import in_runs
from .asked import asked
from .dues import reports_of
from .loads import Load, Measured
from .names import Names
from .nodes import nodes_of, noted
from .outlook import look_outs
from .sizes import Sizes
from .writing import Plan, answered

USAGE = (
    "usage: tools/plan [--lines] [--from TIME] [--rate STREAM=NxM].. [--stored N] events [--json] [--slack N] < LOG"
    " | run [--json] [--store FILE] QUERY STREAM=FILE.. | check QUERY"
)


class Task:
    """A query of which a plan is to be made: it stands in a text from the instant `start` on."""

    def __init__(self, name, query, text, start):
        self.name, self.query, self.text, self.start = name, query, text, start


def plans(words):
    """The plan of each query, with what to look out for in it, and each fault."""
    wanted = asked(words)
    if wanted.words.mode == "events":
        with opened(None) as log:
            return of_log(log, name_of_input(), wanted)
    return of_run(wanted) if wanted.words.mode == "run" else of_check(wanted)


def of_check(wanted):
    text = Text(wanted.words.query, file_of(wanted.words.query))
    its = looked_at(text.content, text, "plan")
    if its is None:
        return []
    if its.why:
        return [of_text(text, text.content, its.why)]
    return of_task(Task("the query", its.query, text, None), wanted, None)


def of_run(wanted):
    """As the program, it reads all files before it looks at the text."""
    words, text = wanted.words, Text(wanted.words.query, file_of(wanted.words.query))
    stores = [recordings.Store(words.store)] if words.store else []
    streams = recordings.recordings_of(words.streams)
    faults = faults_of_files([*stores, *streams])
    its = looked_at(text.content, text, "plan")
    if its is None or its.why:
        return [*faults, *([of_text(text, text.content, its.why)] if its else [])]
    course = course_of_run(Measured(), its.query, text, stores, streams)
    (watched,) = course.watched
    return [*faults, *of_task(Task("the query", its.query, text, watched.start), wanted, course)]


def of_log(log, name, wanted):
    """The plans of a log, an open file, under the name."""
    course = Measured(wanted.words.slack)
    faults, _ = course_of_log(course, log, name)
    return itertools.chain(in_order(list(in_runs(faults))), of_tasks(wanted, course))


def of_tasks(wanted, course):
    """The plan of each query of a log, as soon as it is made."""
    for watched in course.watched:
        yield from of_task(Task(watched.name.decode(), watched.query, watched.text, watched.start), wanted, course)


def of_task(task, wanted, course):
    """The plan of a query, and behind it what to look out for."""
    known = {clause["stream"].encode() for clause in task.query["windows"]}
    for stream in wanted.rates.keys() - (known | set(course.brought if course else ())):
        complain("plan", f"no window of {task.name} reads the stream <{stream.decode()}> of a `--rate`")
    made = within_limits(Work(task, wanted, Load(wanted, course)))
    if made is None:
        file, line, _ = task.text.place(0)
        complain("plan", f"{file}:{line}: this text isn't planned in {SECONDS} seconds, so nothing is said of it")
    return made or []


class Work:
    """Makes a plan, with its findings, in a process of its own."""

    def __init__(self, task, wanted, load):
        self.task, self.wanted, self.load = task, wanted, load

    def __call__(self):
        task, words = self.task, self.wanted.words
        policy = policy_of(task.query["policy"])
        windows = [window_of(clause, task.query["policy"]) for clause in task.query["windows"]]
        # before it begins it doesn't report
        start = max(self.wanted.begin or 0, task.start or 0)
        names, tree = Names(task.query, task.text.content), translated(task.query).tree
        noted(tree, names)
        sizes = Sizes(tree, windows, self.load)
        nodes = list(nodes_of(tree, names, [clause["name"] for clause in task.query["windows"]]))
        reports = reports_of(task.query, policy, windows, start, words.slack)
        plan = Plan(
            task.text.place(0), task.name, words.mode, words.slack, task.query, windows, names, reports, nodes, sizes, self.load
        )
        return [answered(plan), *look_outs(task.query, task.text, tree, names, sizes, policy, windows)]
