"""Each line with a document of JSON-LD becomes an item of its triples, at the time that it has as sosa:resultTime.

A document without a context of its own has the one of the file. One that names its context by an IRI is passed over, since it
would have to be fetched; so is a line that is no document, or has not one time with its zone.
"""
import json
import re
import signal
import sys
from decimal import Decimal

import rdflib
from rdflib import Graph, Literal, URIRef

rdflib.NORMALIZE_LITERALS = False  # literals stay as they are written
TIME = URIRef("http://www.w3.org/ns/sosa/resultTime")
DATE_TIME = URIRef("http://www.w3.org/2001/XMLSchema#dateTime")
# past what a double can hold a number stays as it is, since its digits would have no end
MOST_DIGITS = 400
LABEL = re.compile(r"^_:\w+|(?<= )_:\w+(?= \.$)")
ZONED = re.compile(r"\d{4}-\d\d-\d\dT\d\d:\d\d:\d\d(\.\d{1,9})?(Z|[+-]\d\d:\d\d)")


def written(number):
    """A number with a point or an exponent as the text of its exact value, so that a typed one is a decimal and no double."""
    value = Decimal(number)
    return format(value, "f") if abs(value.adjusted()) <= MOST_DIGITS else number


def names_a_context(value):
    """Whether some context stands as an IRI, in whatever place."""
    if isinstance(value, list):
        return any(map(names_a_context, value))
    if not isinstance(value, dict):
        return False
    contexts = value.get("@context", [])
    listed = contexts if isinstance(contexts, list) else [contexts]
    return "@import" in value or any(isinstance(it, str) for it in listed) or any(map(names_a_context, value.values()))


def graph_of(line, context):
    document = json.loads(line, parse_float=written)
    if not isinstance(document, dict) or names_a_context(document):
        return Graph()
    return Graph().parse(data=json.dumps({"@context": context, **document}), format="json-ld")


def time_of(graph):
    times = list(graph.objects(None, TIME))
    good = len(times) == 1 and isinstance(times[0], Literal) and times[0].datatype == DATE_TIME and ZONED.fullmatch(times[0])
    return str(times[0]) if good else None


def statements(graph, number):
    """The lines of a graph, in an order that doesn't hang on the labels of its blank nodes, which are made new."""
    lines = filter(None, graph.serialize(format="nt").split("\n"))
    labels = {}
    for line in sorted(lines, key=lambda line: re.sub(r"_:\w+", "_:", line)):
        yield LABEL.sub(lambda it: labels.setdefault(it[0], f"_:r{number}n{len(labels)}"), line)


def main(context_file, stream):
    signal.signal(signal.SIGPIPE, signal.SIG_DFL)  # where nobody reads on, it ends
    with open(context_file, encoding="utf-8") as file:
        context = json.load(file)
    number = 0
    for line in sys.stdin:
        try:
            graph = graph_of(line, context)
        except Exception:  # whatever the library says of a line that is no document
            continue
        time = time_of(graph)
        if time:
            number += 1
            print(f"@item <{stream}> {time}", *statements(graph, number), "@end", sep="\n", flush=True)


if __name__ == "__main__":
    main(*sys.argv[1:])
