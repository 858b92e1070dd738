"""Loads of what a report costs where little has changed since the last one, and of what is kept between reports.

Each is made from its size alone, as those of loads.py.
"""
from loads import XSD, block, registration, stored

WINDOW = "WINDOW <w:1> { ?x <p:v> ?y }"
SECOND = "FROM NAMED WINDOW <w:1> ON <s:a> [RANGE PT1S]"
MANY_STORED = 100_000


def query(name, operator, columns, body, end="", clause=SECOND):
    head = f"REGISTER {operator} <q:o> REPORT CLOSE TICK TIME AS SELECT {columns} {clause}"
    return block(f"@register {name}", [f"{head} WHERE {{ {body} }} {end}\n"])


def inserted(quads):
    """These quads, five hundred a block."""
    return b"".join(block("@insert", quads[at:at + 500]) for at in range(0, len(quads), 500))


# ---- items of which each brings a report, over a hundred thousand stored quads: what a report costs in items that nobody reads

OPTIONAL = f"?y <p:m> ?z OPTIONAL {{ {WINDOW} }}"
BY_ITEMS = {
    "nobody": [],
    "join": [("RSTREAM", "?x ?z", f"{WINDOW} ?y <p:m> ?z", "")],
    "optional": [("DSTREAM", "?x ?z", OPTIONAL, "")],
    "exists and minus": [
        ("RSTREAM", "?y ?z", f"?y <p:m> ?z FILTER EXISTS {{ {WINDOW} }}", ""),
        ("DSTREAM", "?y ?z", f"?y <p:m> ?z MINUS {{ {WINDOW} }}", ""),
    ],
    "groups": [
        ("RSTREAM", "(COUNT(?x) AS ?n) (MAX(COALESCE(?x, ?z)) AS ?last)", OPTIONAL, ""),
        ("RSTREAM", "?y (COUNT(?x) AS ?n)", OPTIONAL, "GROUP BY ?y HAVING (COUNT(?x) > 0)"),
    ],
}


def by_items(node):
    """A load of so many items a second apart, each of which names one of the stored quads, under the queries of a node."""
    live = b"".join(query(f"q{number}", *asked) for number, asked in enumerate(BY_ITEMS[node]))
    quads = [f"<a:{k}> <p:m> <b:{k}> .\n" for k in range(MANY_STORED)]

    def load(size):
        items = [
            b"@item <s:a> %d\n<n:%d> <p:v> <a:%d> .\n@end\n" % (1000 * k + 500, k, k * 7919 % MANY_STORED)
            for k in range(1, size + 1)
        ]
        return live + b"@tick 1\n" + inserted(quads) + b"".join(items) + b"@tick %d\n" % (1000 * size + 1000)

    return load


# ---- the query of the generator over its own log, and the same log where nobody reads it

GENERATED = f"""PREFIX ex: <http://example.org/>
REGISTER ISTREAM ex:out AS SELECT ?s (COUNT(*) AS ?n) (SUM(?v) AS ?t)
FROM NAMED WINDOW ex:w ON ex:in [RANGE PT60S STEP PT10S]
WHERE {{ WINDOW ex:w {{ ?s ex:v ?v OPTIONAL {{ ?s ex:off ?f }} }} FILTER(!BOUND(?f)) }} GROUP BY ?s
"""


def generated_items(size):
    number, ex = 1, "http://example.org/"
    for i in range(1, size + 1):
        number = (6364136223846793005 * number + 1442695040888963407) % 2**64
        sensor, value = f"<{ex}s{number // 2**32 % 100}>", f'"{number // 2**40 % 1000}"^^<{XSD}integer>'
        off = [f"{sensor} <{ex}off> <{ex}x> .\n"] if i % 50 == 0 else []
        yield block(f"@item <{ex}in> {100 * i}", [f"{sensor} <{ex}v> {value} .\n", *off])


def generated_log(is_read):
    """A load of so many items of the generator as a log, with its query or without it."""
    live = block("@register g", [GENERATED]) if is_read else b""
    return lambda size: live + b"".join(generated_items(size)) + b"@tick %d\n" % (100 * size)


# ---- ten quads go and ten come before each report, of a hundred thousand

def ten_changes(operator):
    """A load of so many reports of as many rows as quads are stored, under this operator."""
    live = query("q", operator, "?y ?z", "GRAPH <g:1> { ?y <p:m> ?z }")

    def quads(numbers):
        return [f"<b:{k}> <p:m> <c:{k}> <g:1> .\n" for k in numbers]

    def load(size):
        changes = [
            block("@delete", quads(range(10 * k, 10 * k + 10)))
            + block("@insert", quads(range(MANY_STORED + 10 * k, MANY_STORED + 10 * k + 10)))
            + b"@tick %d\n" % (1000 * k + 2000)
            for k in range(size)
        ]
        return live + b"@tick 1\n" + stored(MANY_STORED) + b"@tick 1000\n" + b"".join(changes)

    return load


# ---- what a first report costs

def first_report(is_asked):
    """A load of so many stored quads, with one report of a join over them, or with a query that never reports."""
    live = query("q", "RSTREAM", "?x ?z", f"{WINDOW} GRAPH <g:1> {{ ?y <p:m> ?z }}")
    never = registration("q", "REPORT EVERY P365D TICK TIME", SECOND, WINDOW)
    item = block("@item <s:a> 500", ["<a:1> <p:v> <b:1> .\n"])
    return lambda size: (live if is_asked else never) + b"@tick 1\n" + stored(size) + item + b"@tick 1000\n"


# ---- memory

def readers(size):
    """256 queries over so many stored quads, each of which reads its 256th part, and one report of each."""
    quads = [f"<a:{k}> <p:{k % 256}> <b:{k}> .\n" for k in range(size)]
    live = [query(f"q{k}", "ISTREAM", "?x ?y", f"?x <p:{k}> ?y") for k in range(256)]
    return b"".join(live) + b"@tick 1\n" + inserted(quads) + b"@tick 1000\n"


def again(size):
    """So many registrations of one query over a hundred thousand quads, each reported once and cancelled."""
    quads = [f"<a:{k}> <p:m> <a:{k + 1}> .\n" for k in range(MANY_STORED)]
    live = query("q", "RSTREAM", "(COUNT(*) AS ?n)", "?x <p:m> ?y OPTIONAL { ?y <p:m> ?z }")
    rounds = [live + b"@tick %d\n@cancel q\n" % (1000 * k + 1000) for k in range(size)]
    return b"@tick 1\n" + inserted(quads) + b"".join(rounds)


def through(size):
    """So many items, ten milliseconds apart, through MINUS, a join and a group over a window of ten seconds, told each second."""
    body = "WINDOW <w:1> { ?x <p:v> ?y MINUS { ?x <p:off> ?f } } ?y <p:in> ?r"
    clause = "FROM NAMED WINDOW <w:1> ON <s:a> [RANGE PT10S STEP PT1S]"
    live = query("q", "ISTREAM", "?r (COUNT(*) AS ?n) (MAX(?x) AS ?most)", body, "GROUP BY ?r", clause)
    rooms = [f"<y:{k}> <p:in> <r:{k % 3}> .\n" for k in range(10)]
    items = [
        b"@item <s:a> %d\n<a:%d> <p:v> <y:%d> .\n%s@end\n"
        % (10 * k, k, k % 10, b"<a:%d> <p:off> <o:1> .\n" % k if k % 7 == 0 else b"")
        for k in range(1, size + 1)
    ]
    return live + block("@insert", rooms) + b"".join(items) + b"@tick %d\n" % (10 * size)


# ---- keys that collide: the hasher of the maps has a fixed seed, and takes 16 bytes at a time

MULTIPLIER, SEED, WORD = 0x9E3779B97F4A7C15, 0x243F6A8885A308D3, 2**64 - 1
OF_IRIS = set(range(33, 127)) - set(b'"<>\\^`{|}')


def folded(one, other):
    product = one * other
    return product & WORD ^ product >> 64


def number_of(piece):
    return int.from_bytes(piece, "little")


# where the keys of a load stand: they are subjects of facts, or cells that a join goes by
KEYS_OF = ("facts", "rows")


def colliding_front():
    """24 bytes of an IRI of 32 whose last eight have no part in the number of its text: those before are what the hasher has come to."""
    for number in range(10**9):
        first = b"a:%014d" % number
        words = number_of(first[:8]) ^ (SEED + 32 & WORD), number_of(first[8:]) ^ MULTIPLIER
        behind = folded(*words).to_bytes(8, "little")
        if OF_IRIS.issuperset(behind):
            return (first + behind).decode()
    return None


def keys(place, are_colliding):
    """A load of so many stored quads with their partners and a report of their join, by keys that collide or by others as long.

    They are the subjects of facts that are alike else, or the cells that the join goes by.
    """
    front = colliding_front() if are_colliding else "a:" + "x" * 22
    live = query("q", "RSTREAM", "(COUNT(*) AS ?n)", "?x <p:m> ?y . ?y <p:n> ?z")

    def quads(k):
        key = f"<{front}{k:08}>"
        if place == "facts":
            return f"{key} <p:m> <o:1> .\n<o:1> <p:n> <c:1> .\n"
        return f"<b:{k}> <p:m> {key} .\n{key} <p:n> <c:{k}> .\n"

    return lambda size: live + b"@tick 1\n" + inserted([quads(k) for k in range(size)]) + b"@tick 1000\n"
