"""How a plan is written: in words, and as a line of JSON."""
import json
import math
from collections import namedtuple

from model import MOST_HELD, MOST_QUADS
from query_model import LAST_INSTANT

from ..calls import Answer
from ..course import MOST_TRIPLES
from ..pages import COSTS
from ..places import printable, quoted
from .dues import in_words
from .lengths import about, at_most, decimal, size
from .nodes import is_by_key_alone
from .sizes import memory
from .windows import full_after, kept_of, kept_triples, most_times, said_of, spans_of

# what is known of a load, each None where it isn't: kept triples, after which milliseconds they are too many, by what the rates
# may be multiplied; and stored quads, rows on sides, and megabytes
Told = namedtuple("Told", "kept full times stored rows memory")
# a plan: of a query's text, its name, and what is said of it
Plan = namedtuple("Plan", "place name mode slack query windows names reports nodes sizes load")


def loaded(plan):
    """What the load of a plan comes to."""
    load, spans = plan.load, spans_of(plan.windows, plan.slack)
    kept = kept_triples(load.rates, spans) if all(stream in load.rates for stream in spans) else None
    rows, stored = plan.sizes.on_sides(plan.nodes[0].tree), load.stored
    takes = None if None in (kept, rows) else memory(kept, stored or 0, rows)
    full = None if kept is None or kept <= MOST_HELD else full_after(load.rates, spans)
    return Told(kept, full, most_times(load.rates, spans) if kept else None, stored, rows, takes)


def answered(plan):
    told = loaded(plan)
    return Answer(in_text(plan, told), json.dumps(in_json(plan, told)) + "\n")


# ---- in words


def in_text(plan, told):
    file, line, column = plan.place
    parts = [
        ("reports", of_reports(plan)), ("windows", of_windows(plan)), ("nodes", of_nodes(plan)), ("load", of_load(plan, told)),
    ]
    lines = [f"{file}:{line}:{column}: plan of {plan.name}"]
    for title, said in parts:
        lines += [f"  {title}", *(f"    {one}" for one in said)]
    return "".join(f"{printable(line)}\n" for line in lines)


def of_reports(plan):
    said, dues, lets = plan.reports
    lines = [said, *(in_words(due, plan.mode) for due in dues or [])]
    if dues == []:
        lines.append(f"none comes up to the last instant, which is {LAST_INSTANT}")
    return [*lines, *([lets] if lets else [])]


def of_windows(plan):
    return [said_of(clause, window, plan.names, plan.slack) for clause, window in zip(plan.query["windows"], plan.windows)]


def of_nodes(plan):
    return [f"{'  ' * node.depth}{of_node(node, plan)}" for node in plan.nodes]


def of_node(node, plan):
    return f"{node.said}{of_key(node, plan.names)}{of_rows(node, plan.sizes)}{of_kept(node)}"


def of_key(node, names):
    if node.key is None:
        return ""
    if not node.key and is_by_key_alone(node.tree):
        return f", by none: {'all left rows stay' if node.kind == 'minus' else 'one right row decides for all'}"
    return f", by {names.row(node.key)}" if node.key else ", by none: each row meets all rows"


def of_rows(node, sizes):
    many, is_most = sizes.of(node.tree)
    return "" if many is None else f"; {'up to' if is_most else 'some'} {counted(math.ceil(many), 'row')}"


def of_kept(node):
    return f"; keeps {node.kept}"


def counted(many, what, rounded=decimal):
    said = rounded(many)
    return f"{said} {what}{'' if said == '1' else 's'}"


# ---- the load


def of_load(plan, told):
    lines = [of_rate(stream, plan) for stream in spans_of(plan.windows, plan.slack)]
    if told.kept is not None:
        lines += of_kept_triples(plan, told)
    if told.stored is not None:
        over = ": refusal 20 comes" if told.stored > MOST_QUADS else ""
        lines.append(f"{told.stored} of at most {MOST_QUADS} quads are stored{over}")
    if told.memory is not None:
        lines.append(f"this takes {size(told.memory)} of memory, by the figures of {COSTS}")
    return lines


def of_rate(stream, plan):
    name = quoted(plan.names.iri(stream.decode()))
    if stream not in plan.load.rates:
        return f"of {name} nothing is known: `--rate {stream.decode()}=NxM` says that N items a second come, of M triples each"
    items, triples = plan.load.rates[stream]
    measured = ", as measured" if stream in plan.load.measured else ""
    over = f": refusal 21 comes, since an item has {MOST_TRIPLES} at most" if triples > MOST_TRIPLES else ""
    return f"{name}: {counted(items, 'item')} a second of {counted(triples, 'triple')}{measured}{over}"


def of_kept_triples(plan, told):
    kept = f"{told.kept} of at most {MOST_HELD} triples are kept"
    if not told.kept:
        return [kept]
    first, *others = [plan.load.rates[stream] for stream in spans_of(plan.windows, plan.slack)]
    limit = f"{at_most(told.times)} times {'these rates' if others else 'this rate'}"
    if not others:
        limit += f", which is {counted(first.items * told.times, 'item', at_most)} a second"
    if told.full is None:
        return [f"{kept}: refusal 19 comes beyond {limit}"]
    would = f"{told.kept} triples would be kept, and {MOST_HELD} may be"
    return [f"refusal 19 comes after {about(told.full)}: {would}; none at {limit}"]


# ---- as JSON


def in_json(plan, told):
    file, line, column = plan.place
    return {
        "file": file, "line": line, "column": column, "kind": "plan", "query": plan.name,
        "reports": json_of_reports(plan.reports),
        "windows": [json_of_window(*both, plan) for both in zip(plan.query["windows"], plan.windows)],
        "nodes": [json_of_node(node, plan) for node in plan.nodes],
        "load": {
            **{name: number(value) for name, value in told._asdict().items()},
            "times": None if told.times is None else json.loads(at_most(told.times)),
        },
    }


def json_of_reports(reports):
    dues = None if reports.dues is None else [due._asdict() for due in reports.dues]
    return {"is": reports.said, "next": dues, "lets": reports.lets}


def json_of_window(clause, window, plan):
    kept, (name, stream) = kept_of(window, plan.slack), (str(clause[what]) for what in ("name", "stream"))
    return {
        "name": name, "stream": stream, "range": window.width, "step": window.slide, "start": window.origin,
        "least": kept.least, "most": kept.most, "kept": kept.span,
    }


def json_of_node(node, plan):
    many, is_most = plan.sizes.of(node.tree)
    by = None if node.key is None else plan.names.row(node.key).split()
    return {
        "depth": node.depth, "node": node.said, "key": by, "keeps": node.kept, "rows": number(many), "is_most": is_most,
    }


def number(value):
    """A number of JSON."""
    if value is None or value == int(value):
        return value if value is None else int(value)
    return round(float(value), 6)
