"""Logs that are written twice: with their items in order, and in another order in which none is behind a later one by more than a
slack.

All that isn't an item stands in front of the items: queries, each of which looks at instants, what is stored, and `@tick 0`,
behind which both have the same instants before them. A tick behind the last item makes them all complete. So the items in the
other order, under the slack, bring byte for byte the reports that those in order bring without one. Items of one time may change
places too: a report is made of sets of items and of triples, and no row says in which order they came.
"""
import re

from random_queries import QueryWriter

HOUR, DAY = 3_600_000, 86_400_000
# how far items and the last tick go, and slacks
SCALES = {
    "fine": ([0, 0, 1, 1, 2, 3, 5], [0, 7, 20], [1, 2, 5, 20]),
    "seconds": ([0, 1, 500, 1000, 2500], [0, 5000, 20_000], [1, 500, 2500, 10_000]),
    "far": ([0, 1, HOUR, HOUR, DAY, 97 * DAY], [0, 365 * DAY], [1, HOUR, DAY]),
}
NODES, PREDICATES = ["<a:1>", "<a:10>", "<a:2>", "_:a"], ["<p:v>", "<p:v>", "<p:m>"]
VALUES = NODES + [f'"{n}"^^<http://www.w3.org/2001/XMLSchema#integer>' for n in ("1", "2", "01", "-3")]
STREAMS = ["<s:a>", "<s:a>", "<s:b>", "<s:b>", "<s:c>"]


def looks_at_arrivals(text):
    return re.search("cqels|tuple", text, re.IGNORECASE) is not None


def block(directive, lines):
    return "".join(f"{line}\n" for line in [directive, *lines, "@end"])


def triples(dice, graphs=("",)):
    """A few statements, of terms that meet."""
    return [
        f"{dice.choice(NODES)} {dice.choice(PREDICATES)} {dice.choice(VALUES)} {dice.choice(graphs)} ."
        for _ in range(dice.choice([0, 1, 1, 2, 3]))
    ]


def query(dice, name, scale):
    """A registration of a query that looks at instants."""
    text = "cqels"
    while looks_at_arrivals(text):
        text = QueryWriter(dice, 0, scale, True).text()
    return block(f"@register {name}", [text])


def front(dice, scale):
    queries = [query(dice, f"q{number}", scale) for number in range(dice.choice([1, 2, 4]))]
    stored = [block("@insert", triples(dice, ["", "<g:1>", "<g:2>"])) for _ in range(dice.choice([0, 2]))]
    return "".join(queries + stored) + "@tick 0\n"


def items(dice, steps):
    """Some items in order, each as its time and its block."""
    time, made = 1, []
    for _ in range(dice.choice([3, 10, 40])):
        time += dice.choice(steps)
        made.append((time, block(f"@item {dice.choice(STREAMS)} {time}", triples(dice))))
    return made


def shuffled(dice, made, slack):
    """The items in an order in which none is behind a later one by more than the slack."""
    delays = [dice.choice([0, slack, dice.randint(0, slack)]) for _ in made]
    places = sorted(range(len(made)), key=lambda place: (made[place][0] + delays[place], dice.random()))
    return [made[place] for place in places]


def with_ticks(dice, made):
    """The blocks, with ticks between them, each up to the last instant behind which all comes that is still to come."""
    for place, (_, text) in enumerate(made):
        if dice.random() < 0.1:
            yield f"@tick {min(time for time, _ in made[place:]) - 1}\n"
        yield text


def pair(dice):
    """A slack, a log whose items are in order, and one in which they are in another order that the slack allows."""
    scale = dice.choice(list(SCALES))
    steps, ends, slacks = SCALES[scale]
    start, made, slack = front(dice, scale), items(dice, steps), dice.choice(slacks)
    end = f"@tick {made[-1][0] + dice.choice(ends)}\n"
    orders = (text for _, text in made), with_ticks(dice, shuffled(dice, made, slack))
    return slack, *((start + "".join(texts) + end).encode() for texts in orders)
