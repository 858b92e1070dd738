"""Logs at which a report has to cost what has changed since the query's last one, and the output that is wanted of each.

Quads `<a:i> <p:m> <b:i>` are stored, and each second an item comes that names one of them: so each report changes by a row or
two, of as many as are stored. A program that evaluates each report anew takes an hour and more at these.
"""
STORED, ITEMS = 100_000, 20_000
INTEGER = "^^<http://www.w3.org/2001/XMLSchema#integer>"
WINDOW = "WINDOW <w:1> { ?x <p:v> ?y }"
OPTIONAL = f"?y <p:m> ?z OPTIONAL {{ {WINDOW} }}"


def registered(name, operator, columns, body, end=""):
    return (
        f"@register {name}\nREGISTER {operator} <q:o> REPORT CLOSE TICK TIME AS SELECT {columns}\n"
        f"FROM NAMED WINDOW <w:1> ON <s:a> [RANGE PT1S]\nWHERE {{ {body} }} {end}\n@end\n"
    )


class Sizes:
    """How many quads are stored and how many items come, and which quad an item names."""

    def __init__(self, stored, items):
        self.stored, self.items = stored, items

    def named(self, number):
        return number * 7919 % self.stored

    def log(self, registrations):
        """The queries, the stored quads, a first report that sees no item, and one report for each item."""
        quads = "".join(f"<a:{i}> <p:m> <b:{i}> .\n" for i in range(self.stored))
        items = "".join(
            f"@item <s:a> {1000 * k + 500}\n<n:{k}> <p:v> <a:{self.named(k)}> .\n@end\n" for k in range(1, self.items + 1)
        )
        return f"{registrations}@tick 1\n@insert\n{quads}@end\n{items}@tick {1000 * self.items + 1000}\n".encode()

    def output(self, *queries):
        """The reports of queries, each its name, its header and its rows by the number of the item that is seen, 0 for none."""
        pieces = []
        for number in range(self.items + 1):
            for name, header, rows_of in queries:
                rows = sorted(rows_of(number))
                pieces.append("\n".join([f"# report {name} {1000 * number + 1000} {len(rows)}", header, *rows, ""]))
        return "".join(pieces).encode()

    def row(self, number):
        """The item's quad, as `?y` and `?z`; no row for no item."""
        return [f"<a:{self.named(number)}>\t<b:{self.named(number)}>"] if number else []

    # ---- the logs, each with its output

    def join(self):
        """Each item with its quad."""
        return self.log(registered("q", "RSTREAM", "?y ?z ?x", f"{WINDOW} ?y <p:m> ?z")), self.output(
            ("q", "?y\t?z\t?x", lambda number: [f"{row}\t<n:{number}>" for row in self.row(number)]))

    def optional(self):
        """Each stored quad with its item, where one names it: the bare row of the item goes, and the row of the item before."""
        def gone(number):
            before = [f"{row}\t<n:{number - 1}>" for row in self.row(number - 1)] if number else []
            return [f"{row}\t" for row in self.row(number)] + before

        return self.log(registered("q", "DSTREAM", "?y ?z ?x", OPTIONAL)), self.output(("q", "?y\t?z\t?x", gone))

    def distinct(self):
        """Each stored quad's ?y once, beside its item where one names it: of as many rows as are stored a bare one goes, and the
        one of the item before; the bare one of that comes back.
        """
        def gone(number):
            before = [f"<a:{self.named(number - 1)}>\t<n:{number - 1}>"] if number > 1 else []
            return [f"<a:{self.named(number)}>\t"] + before if number else []

        return self.log(registered("q", "DSTREAM", "DISTINCT ?y ?x", OPTIONAL)), self.output(("q", "?y\t?x", gone))

    def partners(self):
        """The stored quads that an item names; of those that none names what goes, by MINUS and by NOT EXISTS."""
        queries = {
            "exists": registered("exists", "RSTREAM", "?y ?z", f"?y <p:m> ?z FILTER EXISTS {{ {WINDOW} }}"),
            "minus": registered("minus", "DSTREAM", "?y ?z", f"?y <p:m> ?z MINUS {{ {WINDOW} }}"),
            "absent": registered("absent", "DSTREAM", "?y ?z", f"?y <p:m> ?z FILTER NOT EXISTS {{ {WINDOW} }}"),
        }
        return self.log("".join(queries.values())), self.output(*((name, "?y\t?z", self.row) for name in queries))

    def groups(self):
        """One group of all stored quads, and a group for each of them of which one is let through."""
        columns = "(COUNT(*) AS ?n) (COUNT(?x) AS ?k) (MAX(COALESCE(?x, ?z)) AS ?last)"
        queries = registered("all", "RSTREAM", columns, OPTIONAL)
        queries += registered("each", "RSTREAM", "?y (COUNT(?x) AS ?n)", OPTIONAL, "GROUP BY ?y HAVING (COUNT(?x) > 0)")

        def whole(number):
            last = f"<n:{number}>" if number else max(f"<b:{i}>" for i in range(self.stored))
            return [f'"{self.stored}"{INTEGER}\t"{int(number > 0)}"{INTEGER}\t{last}']

        def each(number):
            return [f'<a:{self.named(number)}>\t"1"{INTEGER}'] if number else []

        return self.log(queries), self.output(("all", "?n\t?k\t?last", whole), ("each", "?y\t?n", each))


def logs(stored=STORED, items=ITEMS):
    """Each as its name, the log, and the output that is wanted."""
    sizes = Sizes(stored, items)
    for name in ("join", "optional", "distinct", "partners", "groups"):
        yield f"{items} reports over {stored} stored quads: {name}", *getattr(sizes, name)()
