"""Names, terms and expressions of a query, as its text could write them."""
import re

from query_model import RDF_TYPE, tokens_of, unescaped
from term_model import XSD, Iri, printed
from value_model import term_of

from ..places import printable

# of a text so many signs are shown
MOST_SHOWN = 60
PLAIN_PARTS = ("variable", "constant", "bound", "call")
PLAIN = re.compile(r"[A-Za-z_][A-Za-z0-9_-]*|")
BARE = {XSD + b"integer": rb"-?[0-9]+", XSD + b"decimal": rb"-?[0-9]*[.][0-9]+", XSD + b"boolean": b"true|false"}


def declared(content):
    """The prefixes that a text declares, each with its colon, and the IRIs for which they stand; three tokens each, in front."""
    tokens, found = tokens_of(content.decode()), {}
    while tokens and tokens[0].kind == "Word" and tokens[0].text.upper() == "PREFIX":
        found[tokens[1].text] = unescaped(tokens[2].text[1:-1])
        del tokens[:3]
    return found


class Names:
    """How the parts of one query are written."""

    def __init__(self, query, content):
        self.variables, self.prefixes, self.aggregates = query["variables"], declared(content), {}

    def note(self, aggregates):
        """Takes the aggregates of a group, which have no names of their own."""
        for variable, kind, is_distinct, argument in aggregates:
            inner = "*" if argument is None else self.expression(argument)
            self.aggregates[variable] = f"{kind}({'DISTINCT ' if is_distinct else ''}{inner})"

    def variable(self, variable):
        if isinstance(variable, tuple):
            return f"?/{variable[1]}"
        if variable in self.aggregates:
            return self.aggregates[variable]
        kind, *_, name = self.variables[variable]
        return {"name": f"?{name}", "_:": f"_:{name}", "[]": f"_:[{name}]"}.get(kind, f"?({name})")

    def row(self, variables):
        """Variables in the order of the text, those of a path's middle last."""
        return " ".join(self.variable(v) for v in sorted(variables, key=lambda v: (isinstance(v, tuple), v)))

    def iri(self, name):
        for prefix, target in self.prefixes.items():
            if target and name.startswith(target) and PLAIN.fullmatch(name[len(target):]):
                return prefix + name[len(target):]
        return f"<{name}>"

    def term(self, term):
        if isinstance(term, Iri):
            return self.iri(term.name.decode())
        form = BARE.get(getattr(term, "datatype", None))
        text = term.lexical if form and re.fullmatch(form, term.lexical) else printed(term)
        return printable(text.decode()).replace("\t", " ")

    def slot(self, slot):
        return self.variable(slot[1]) if slot[0] == "variable" else self.term(slot[1])

    def triple(self, pattern):
        _, _, subject, verb, thing = pattern
        is_type = verb == ("constant", Iri(RDF_TYPE.encode()))
        return f"{self.slot(subject)} {'a' if is_type else self.slot(verb)} {self.slot(thing)}"

    # ---- expressions

    def expression(self, e):
        """An expression, cut where it is long."""
        text = self.whole(e)
        return text if len(text) <= MOST_SHOWN else text[:MOST_SHOWN] + ".."

    def whole(self, e):
        kind = e[0]
        if kind == "variable":
            return self.variable(e[1])
        if kind == "constant":
            return self.term(term_of(e[1]))
        if kind == "bound":
            return f"BOUND({self.variable(e[1])})"
        if kind == "call":
            return f"{e[1]}({', '.join(map(self.whole, e[2]))})"
        return self.of_signs(e)

    def of_signs(self, e):
        kind = e[0]
        if kind in ("or", "and"):
            return (" || " if kind == "or" else " && ").join(map(self.inner, e[1]))
        if kind == "member":
            return f"{self.inner(e[2])} {'NOT IN' if e[1] else 'IN'} ({', '.join(map(self.whole, e[3]))})"
        if kind == "signed":
            return f"{e[1]}{self.inner(e[2])}"
        return f"{self.inner(e[2])} {e[1]} {self.inner(e[3])}"

    def inner(self, e):
        """A part of an expression, in parentheses where it has signs of its own."""
        is_plain = e[0] in PLAIN_PARTS or (e[0] == "signed" and e[2][0] in PLAIN_PARTS)
        return self.whole(e) if is_plain else f"({self.whole(e)})"
