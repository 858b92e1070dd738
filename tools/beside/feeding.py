"""Windows that nothing feeds or that nobody looks into, streams that nobody reads, graphs in which nothing is stored."""
import difflib

from query_model import all_parts, groups_in
from term_model import Iri

from .findings import Finding
from .pages import TOOLS, page_of
from .places import quoted

# what brings items and what stores quads, in the words of a mode
SOURCES = {"events": ("item", "an `@insert` of quads into it"), "run": ("file", "`--store FILE` with quads of it")}


def similar(name, lonely, others=()):
    """The most similar of the names that have no counterpart, else one of the others that is hardly another; or None."""
    for names, least in ((lonely, 0.5), (others, 0.8)):
        found = difflib.get_close_matches(name, [other for other in names if other != name], 1, least)
        if found:
            return found[0]
    return None


def iri(name):
    return quoted(f"<{name}>")


# ---- a query alone


def unlooked(query, text):
    """Each window into which no WINDOW looks."""
    looked_into = {part[1] for part in all_parts(query["select"]["body"]) if part[0] == "window"}
    for clause in query["windows"]:
        if clause["name"] not in looked_into:
            said = f"no WINDOW looks into the window {iri(clause['name'])}, which only says when to report"
            write = "write WINDOW and its name before the braces of what is to be found in it, or nothing if that is meant"
            yield Finding(text.place(clause["name"].start), "unlooked", said, write, page_of(TOOLS, "unlooked"))


# ---- streams


def streams_read(course):
    return {stream for watched in course.watched for stream in watched.streams}


def unfed(watched, course, mode):
    """Each window of a query whose stream no file and no item feeds, with the most similar one, best one that no window reads."""
    read, fed = streams_read(course), [stream.decode() for stream in course.streams]
    lonely = [stream for stream in fed if stream.encode() not in read]
    for clause, window in zip(watched.query["windows"], watched.windows):
        if window.stream in watched.fed or course.refused.feeds(window.stream):
            continue
        said = f"no {SOURCES[mode][0]} feeds the stream {iri(clause['stream'])} of this window"
        other = similar(clause["stream"], lonely, fed)
        if window.stream in course.streams:
            said, write = f"{said} while the query is live", "write the `@register` before its items"
        elif other:
            write = f"write {iri(other)}, if that is meant"
        else:
            write = f"write the stream's name as its {SOURCES[mode][0]}s have it"
        yield Finding(watched.text.place(clause["stream"].start), "unfed", said, write, page_of(TOOLS, "unfed"))


def unread(course, places):
    """Each stream that no window reads, with the most similar one, best one that nothing feeds.

    `places` has where each is named first.
    """
    if course.refused.reads:
        return
    read = sorted(stream.decode() for stream in streams_read(course))
    lonely = [stream for stream in read if stream.encode() not in course.streams]
    for stream, place in places.items():
        if stream.decode() not in read:
            other = similar(stream.decode(), lonely, read)
            write = f"write {iri(other)}, if that is meant" if other else "write a window over it, or leave it out"
            said = f"no window reads the stream {iri(stream.decode())}"
            yield Finding(place, "unread", said, write, page_of(TOOLS, "unread"))


# ---- what is stored


def places_of_triples(body, spot=("default",)):
    """Each run of triples' spot, and the byte at which the first name of the triple stands, as far as one stands there."""
    for part in body:
        if part[0] == "triple":
            yield spot, start_of(part)
        elif part[0] == "sub":
            yield from places_of_triples(part[1]["body"], spot)
        inner_spot = {"window": ("window",), "graph": spot_of(part)}.get(part[0], spot)
        if part[0] == "graph":
            yield inner_spot, part[2]
        for inner in groups_in(part):
            yield from (found for found in places_of_triples(inner, inner_spot) if part[0] != "graph" or found[0] != inner_spot)


def spot_of(part):
    return None if part[0] != "graph" else ("any",) if part[1][0] == "variable" else ("named", part[1][1][1])


def start_of(part):
    """The first byte at which a triple names something."""
    names = [slot[1] if slot[0] == "variable" else slot[1][1] for slot in (part[1], part[3])]
    starts = [name.start for name in [*names, *names_of_way(part[2])] if getattr(name, "start", None) is not None]
    return min(starts, default=0)


def names_of_way(way):
    if way[0] == "step":
        return [way[1][1] if isinstance(way[1], tuple) else way[1]]
    return [name for inner in (way[1:2] if way[0] == "inverse" else way[1]) for name in names_of_way(inner)]


def unstored(watched, course, mode):
    """Triples outside WINDOW and GRAPHs where nothing is stored: each graph once, at its first place."""
    graphs = {graph for graph in course.graphs if graph[0] == "named"}
    told = set()
    if course.refused.stores:
        return
    for spot, start in places_of_triples(watched.query["select"]["body"]):
        is_stored = {
            "window": True, "default": ("default",) in course.graphs, "any": bool(graphs),
            "named": spot[0] == "named" and ("named", Iri(spot[1].encode())) in graphs,
        }[spot[0]]
        if not is_stored and spot not in told:
            told.add(spot)
            yield of_unstored(watched.text.place(start), spot, graphs, mode)


def of_unstored(place, spot, graphs, mode):
    source = SOURCES[mode][1]
    if spot[0] == "default":
        said = "triples outside WINDOW and GRAPH are looked for in the default graph, where nothing is stored"
        write = f"write `WINDOW` and a window's name round them, or {source}"
    elif spot[0] == "any":
        said, write = "no graph with a name is stored, so this GRAPH has no row", f"write {source}"
    else:
        names = [graph[1].name.decode() for graph in graphs if isinstance(graph[1], Iri)]
        other = similar(spot[1], names)
        said = f"nothing is stored in the graph {iri(spot[1])}"
        write = f"write {iri(other)}, if that is meant" if other else f"write {source}"
    return Finding(place, "unstored", said, write, page_of(TOOLS, "unstored"))
