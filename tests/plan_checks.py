"""What `tools/plan` says, against the models: instants, keys, kept triples; the plans of all examples, in tests/plans.expected.

`python3 tests/plan_checks.py` runs these, and with `--write` it writes the plans of the examples anew. The cases of the tool,
with what to look out for, stand in tests/tools/plan.
"""
import io
import itertools
import os
import random
import re
import subprocess
import sys
from fractions import Fraction

sys.dont_write_bytecode = True
TOP = os.path.dirname(os.path.dirname(os.path.realpath(__file__)))
sys.path.insert(0, f"{TOP}/tools")
import beside  # noqa: E402,F401
import documents  # noqa: E402
import model  # noqa: E402
import outcomes  # noqa: E402
from algebra_model import OF_ONE, Overfull, solutions  # noqa: E402
from beside.limits import within_limits  # noqa: E402
from beside.linting import course_of_log  # noqa: E402
from beside.plan.asked import Rate  # noqa: E402
from beside.plan.dues import dues, instants_from  # noqa: E402
from beside.plan.lengths import at_most  # noqa: E402
from beside.plan.loads import Measured  # noqa: E402
from beside.plan.nodes import MATCHED, children, nodes_of, noted  # noqa: E402
from beside.plan.names import Names  # noqa: E402
from beside.plan.windows import is_kept, kept_triples, most_times, spans_of  # noqa: E402
from parted_logs import writer_of_logs  # noqa: E402
from policy_model import policy_of, window_of  # noqa: E402
from random_queries import QueryWriter  # noqa: E402

EXPECTED = f"{TOP}/tests/plans.expected"
LOGS, STREAMS, LOADS, BEYOND = 16, 60, 300, Fraction(1, 10**12)
OF_TIME = {"CLOSE", "EVERY"}
# with more facts all rows of a random query are too many
MOST_FACTS = 60


# ---- the examples


def plan_of(name):
    """What the tool says of an example."""
    folder = f"{TOP}/examples/{name}"
    said, log = documents.read(f"{folder}/words").decode().split(), f"{folder}/log"
    with open(log if os.path.exists(log) else os.devnull, "rb") as given:
        ran = subprocess.run(
            [f"{TOP}/tools/plan", *said], cwd=folder, stdin=given, capture_output=True, timeout=documents.SECONDS
        )
    return f"= {name} {ran.returncode}\n{ran.stdout.decode()}{ran.stderr.decode()}"


def plans():
    return {name: plan_of(name) for name in documents.examples()}


def checks_of_examples():
    wanted = {part.split()[1]: part for part in re.split("(?m)^(?== )", documents.read(EXPECTED).decode()) if part}
    found = plans()
    for name, text in found.items():
        yield f"the plan of examples/{name}", None if wanted.get(name) == text else f"it says {text}"
    left = wanted.keys() - found.keys()
    yield "each plan of the list is of an example", f"{left} is none" if left else None


# ---- the lives of queries in a log, by the model


class TimedWriter(QueryWriter):
    """Writes a query most of which report by instants alone."""

    def policy(self):
        if self.chance(0.2):
            return self.dice.choice(["", "UNDER CSPARQL", "REPORT CHANGE AND CLOSE TICK TIME"])
        names = self.dice.choice([["CLOSE"], ["CLOSE"], ["EVERY"], ["CLOSE", "EVERY"], ["EVERY", "CLOSE"]])
        return f"REPORT {' AND '.join(map(self.strategy, names))} TICK TIME"


def timed_logs():
    """Random logs of such queries, each with its slack. Where days go by the model takes too long."""
    writer = writer_of_logs()
    near = (made for made in (writer(random.Random(seed)) for seed in itertools.count()) if made.scale != "far")
    return map(timed_log, itertools.islice(near, LOGS))


def timed_log(written):
    written.query = lambda: TimedWriter(written.dice, written.fault, written.scale, written.is_storing).text()
    return written.log(), written.slack


def is_of_time(policy):
    return not policy.is_by_tuple and {name for name, _ in policy.strategies} <= OF_TIME


class Life:
    """A query as long as it is live: from which instant on, up to which one, and at which instants it reported."""

    def __init__(self, query):
        self.query, self.start, self.end, self.reported = query, None, None, []

    def is_of_time(self):
        """Whether its policy asks for instants alone."""
        return is_of_time(self.query.policy)


class Lives:
    """The lives of all queries of a log, with the world that the model makes of it."""

    def __init__(self, slack):
        self.world, self.all, self.live = model.World(slack), [], []

    def take(self, group):
        before, (text, _) = self.world.next, model.answer(self.world, group)
        for head, name, at in re.findall(rb"(?m)^# (report|overfull) ([A-Za-z0-9_-]+) (\d+)", text):
            self.note(head, name, int(at))
        self.settle(before)

    def note(self, head, name, at):
        life = next(life for life in self.live if life.query.name == name)
        if head == b"report":
            life.reported.append(at)
        else:
            life.end = at

    def settle(self, before):
        """Ends the lives of the queries that are gone, and begins those of new ones."""
        for life in [life for life in self.live if life.query not in self.world.queries]:
            life.end = before if life.end is None else life.end
            self.live.remove(life)
        known = [life.query for life in self.live]
        new = [Life(query) for query in self.world.queries if query not in known]
        self.live += new
        self.all += new
        for life in self.live:
            life.start = self.world.next if life.start is None else life.start


def lives_of(log, slack):
    lives = Lives(slack)
    for group in model.groups(model.lines_of(io.BytesIO(log))):
        lives.take(group)
    for life in lives.live:
        life.end = lives.world.next
    return lives


def fault_of_log(log, slack):
    """What is wrong with the plans of a log's queries, or None, and how many lives and keys were looked at."""
    lives = lives_of(log, slack)
    of_time = [life for life in lives.all if life.is_of_time()]
    wrong = next(filter(None, map(fault_of_life, of_time)), None)
    wrong = wrong or fault_of_starts(log, slack, of_time) or fault_of_keys(lives.all, lives.world)
    return wrong, len(of_time)


def fault_of_life(life):
    """A report comes at each instant that the plan names, and at no other."""
    if life.start is None:
        return f"it reports at {life.reported}, and time doesn't move" if life.reported else None
    named = instants_from(life.query.policy, life.query.windows, life.start)
    wanted = list(itertools.takewhile(lambda at: at < life.end, named))
    return None if wanted == life.reported else f"{life.query.name} reports at {life.reported}, and the plan names {wanted}"


def fault_of_starts(log, slack, lives):
    """The tool takes each query to begin at the instant at which the model does."""
    course = Measured(slack)
    course_of_log(course, io.BytesIO(log), "log")
    found = [(watched.name, watched.start) for watched in course.watched if is_of_time(watched.policy)]
    wanted = [(life.query.name, life.start) for life in lives]
    return None if found == wanted else f"the tool has the queries {found}, and {wanted} is wanted"


# ---- keys


def is_certain(variable, tree):
    """Whether each row of a tree binds a variable, by one variable after the other."""
    kind, *fields = tree
    if kind == "pattern":
        slots = [*fields[1:], *([("variable", fields[0][1])] if fields[0][0] == "any" else [])]
        return ("variable", variable) in [slot[:2] for slot in slots]
    if kind == "values":
        return fields[0] != [] and all(variable in row for row in fields[0])
    if kind in OF_ONE:
        return is_certain(variable, fields[0]) and stays(variable, kind, *fields[1:])
    if kind == "join":
        return is_certain(variable, fields[0]) or is_certain(variable, fields[1])
    if kind == "union":
        return is_certain(variable, fields[0]) and is_certain(variable, fields[1])
    return kind != "unit" and is_certain(variable, fields[0])


def stays(variable, kind, *others):
    """Whether a node over one child leaves what the child binds."""
    if kind == "group":
        return variable in others[0] and variable not in [made for made, *_ in others[1]]
    return variable != others[0] if kind == "extend" else kind != "project" or variable in others[0]


def fault_of_keys(lives, world):
    for life in lives:
        facts = facts_of(life.query, world)
        wrong = next(filter(None, (fault_of_key(tree, facts) for tree in matched_in(life.query.translated.tree))), None)
        if wrong:
            return f"{life.query.name}: {wrong}"
    return None


def facts_of(query, world):
    """What is stored, and what all items have brought to the query's windows, as far as it is soon looked at."""
    facts = dict.fromkeys(world.stored)
    for place, window in enumerate(query.windows):
        for stream, _, graph in world.items:
            facts.update(((("window", place), *triple), None) for triple in graph if stream == window.stream)
    return list(facts)[:MOST_FACTS]


def matched_in(tree):
    if tree[0] in MATCHED:
        yield tree
    for child in children(tree):
        yield from matched_in(child)


def fault_of_key(tree, facts):
    """A key is what both sides bind for certain, and each row of both binds it."""
    (node, *_) = nodes_of(tree, Plain(), Plain())
    both = [variable for variable in named_in(tree) if is_certain(variable, tree[1]) and is_certain(variable, tree[2])]
    if node.key != set(both):
        return f"the key is {node.key}, and {both} is wanted"
    try:
        rows = [row for side in tree[1:3] for row in solutions(side, facts)]
    except Overfull:
        return None
    return next((f"{row} doesn't bind {node.key}" for row in rows if not node.key <= row.keys()), None)


def named_in(tree):
    """All that may be a variable in a tree."""
    if isinstance(tree, dict):
        return set(tree)
    if isinstance(tree, (tuple, list)):
        return set().union({tree} if tree[:1] == ("/",) else (), *map(named_in, tree))
    return {tree} if isinstance(tree, int) else set()


class Plain(Names):
    """Names of nothing, where what a node says isn't asked."""

    def __init__(self):
        self.prefixes, self.aggregates = {}, {}

    def variable(self, variable):
        return str(variable)

    def __getitem__(self, place):
        return str(place)


# ---- what has to come


def fault_of_what_comes(dice):
    """The first report comes with an item or a tick of the time that the plan names, and with none a millisecond earlier."""
    text, slack, first = timed_text(dice), dice.choice([0, 3, 20]), dice.randrange(50)
    query = model.good_query(text.encode())
    windows = [window_of(clause, query["policy"]) for clause in query["windows"]]
    found = dues(policy_of(query["policy"]), windows, max(0, first - slack), slack)
    return next(filter(None, (fault_of_due(due, text, slack, first) for due in found[:1])), None)


def fault_of_due(due, text, slack, first):
    front = f"@register q\n{text}\n@end\n@item <s:a> {first}\n@end\n"
    for at, lets in ((due.item, "@item <s:a> {}\n@end\n"), (due.tick, "@tick {}\n")):
        came = [has_report(front + lets.format(time), slack, due.at) for time in (at - 1, at)]
        if came != [False, True]:
            return f"under a slack of {slack}, behind an item of {first}, {lets.format(at)} is to bring {due.at}: {came} by {text}"
    return None


def timed_text(dice):
    policy = dice.choice(["CLOSE", "EVERY PT0.007S", "CLOSE AND EVERY PT0.004S"])
    span = f"RANGE PT0.{dice.randrange(1, 30):03}S STEP PT0.{dice.randrange(1, 30):03}S"
    window = f"FROM NAMED WINDOW <w:0> ON <s:a> [{span}]"
    return f"REGISTER RSTREAM <q:o> REPORT {policy} TICK TIME AS SELECT ?s {window} WHERE {{ WINDOW <w:0> {{ ?s ?p ?o }} }}"


def has_report(log, slack, at):
    output, _ = model.run([b"events", b"--slack", b"%d" % slack], log.encode())
    return b"# report q %d " % at in output


# ---- kept triples


def steady(dice):
    """Windows, a rate and a slack: the windows' text, milliseconds from item to item, triples of each, and the slack."""
    clauses = ""
    for place in range(dice.choice([1, 1, 1, 2, 3])):
        width, step = (dice.choice([5, 10, 20, 40, 60]) for _ in range(2))
        clauses += f"FROM NAMED WINDOW <w:{place}> ON <s:a> [RANGE PT0.{width:03}S STEP PT0.{step:03}S] "
    return clauses, dice.choice([1, 2, 5, 3, 7]), dice.randrange(1, 4), dice.choice([0, 0, 10, 13])


def most_kept(clauses, between, triples, slack):
    """How many triples the model keeps at most of a stream whose items come one after another, and the windows."""
    world, graph = model.World(slack), [("s", "p", place) for place in range(triples)]
    text = f"REGISTER RSTREAM <q:o> REPORT CHANGE TICK TIME AS SELECT ?s {clauses} WHERE {{ WINDOW <w:0> {{ ?s ?p ?o }} }}"
    world.register(b"q", text.encode())
    most, items = 0, []
    for time in range(1, 400, between):
        items.append((b"s:a", time, graph))
        most = max(most, world.held(items[-200:], max(0, time - slack)))
    return most, world.queries[0].windows


def fault_of_steady(clauses, between, triples, slack):
    """The plan's triples are those of the model, or those of an item more where none fits just at the end of a window."""
    most, windows = most_kept(clauses, between, triples, slack)
    spans = spans_of(windows, slack)
    planned = kept_triples({b"s:a": Rate(Fraction(1000, between), Fraction(triples))}, spans)
    is_exact = spans[b"s:a"] % between == 0 and len(windows) == 1 and windows[0].slide <= windows[0].width
    if most == planned or (not is_exact and most <= planned):
        return None
    return f"the model keeps {most}, and the plan says {planned}: {clauses}, {between} ms, {triples} triples, a slack of {slack}"


# ---- the rates up to which all is kept


def loads(dice):
    """Rates of streams, from one item in days to many each millisecond, and for how long their items are kept together."""
    streams = [b"s:%d" % place for place in range(dice.choice([1, 1, 2, 3]))]
    rates = {stream: Rate(tenths(dice, 12) / 10**6, tenths(dice, 6)) for stream in streams}
    return rates, {stream: dice.choice([1, 10, 999, 10_000, 86_400_000]) for stream in streams}


def tenths(dice, most_digits):
    return Fraction(dice.randrange(1, 10 ** dice.randrange(1, most_digits)), 10)


def fault_of_limit(rates, spans):
    """All is kept at the limit as it is told, and a millionth of a millionth beyond the exact one it isn't."""
    times = most_times(rates, spans)
    if not is_kept(rates, spans, Fraction(at_most(times))):
        return f"not all is kept at {at_most(times)} times {rates} over {spans}"
    return f"all is kept beyond {times} times {rates} over {spans}" if is_kept(rates, spans, times * (1 + BEYOND)) else None


# ---- all


def checks_of_logs():
    looked_at = 0
    for number, (log, slack) in enumerate(timed_logs()):
        wrong, many = within_limits(fault_of_log, log, slack) or ("the model takes too long", 0)
        looked_at += many
        yield f"the plans of random log {number}", wrong
    yield "random logs have queries that ask for instants alone", None if looked_at > LOGS else f"only {looked_at}"


def checks():
    """Each check as its name and what it found wrong."""
    yield from checks_of_examples()
    dice = random.Random(1)
    for number in range(STREAMS):
        yield f"kept triples of a steady stream, {number}", fault_of_steady(*steady(dice))
    wrong = filter(None, (fault_of_what_comes(dice) for _ in range(STREAMS)))
    yield "what has to come for a report", next(wrong, None)
    wrong = filter(None, (fault_of_limit(*loads(dice)) for _ in range(LOADS)))
    yield "the rates up to which all is kept", next(wrong, None)
    yield from checks_of_logs()


def main():
    if sys.argv[1:] == ["--write"]:
        with open(EXPECTED, "w", encoding="utf-8") as file:
            file.write("".join(plans().values()))
        return 0
    return outcomes.told(checks())


if __name__ == "__main__":
    sys.exit(main())
