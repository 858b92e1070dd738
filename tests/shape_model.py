"""What the definitions say of a query that no tree is made of: shapes of GRAPH, WINDOW and EXISTS, scopes of names.

A query is what `query_model.parse` gives. Each word gives the first place, or the first name, in the text.
"""
from query_model import groups_in
from value_model import variables_in

# ---- windows and graphs


def first(found):
    return next((one for one in found if one is not None), None)


def graph_faults(names, body):
    """The places of each WINDOW that isn't declared, and of each GRAPH of a variable that hasn't just triples."""
    for part in body:
        if part[0] == "window" and part[1] not in names:
            yield part[2]
        if part[0] == "graph" and part[1][0] == "variable" and not (part[3] and all(p[0] == "triple" for p in part[3])):
            yield part[2]
        for inner in [part[1]["body"]] if part[0] == "sub" else groups_in(part):
            yield from graph_faults(names, inner)


def repeated_windows(windows):
    for place, clause in enumerate(windows):
        if clause["name"] in [before["name"] for before in windows[:place]]:
            yield clause["at"]


def graph_shape(query):
    names = [clause["name"] for clause in query["windows"]]
    return first([*repeated_windows(query["windows"]), *graph_faults(names, query["select"]["body"])])


# ---- EXISTS


def is_plain(part):
    """Triples, WINDOW, GRAPH with an IRI, groups and UNION, of such."""
    if part[0] == "graph" and part[1][0] == "variable":
        return False
    is_one = part[0] in ("triple", "union", "graph", "window")
    return is_one and all(is_plain(p) for inner in groups_in(part) for p in inner)


def exists_faults(body, is_of_optional=False):
    """The places of each EXISTS whose group can't be tested, and of each at the top of an OPTIONAL's group."""
    for part in body:
        if part[0] == "exists" and (is_of_optional or not all(p[0] == "filter" or is_plain(p) for p in part[3])):
            yield part[2]
        for inner in [part[1]["body"]] if part[0] == "sub" else groups_in(part):
            yield from exists_faults(inner, part[0] == "optional")


# ---- scopes


def is_given(query, variable):
    """Whether the variable has a name in the text: labels, brackets and aggregates haven't."""
    return query["variables"][variable][0] == "name"


def variables_of_way(way):
    if way[0] == "step":
        return {way[1][1]} if way[1][0] == "variable" else set()
    return set().union(*map(variables_of_way, way[1:2] if way[0] == "inverse" else way[1]))


def visible(query, body):
    """The variables that can be seen behind these elements."""
    return set().union(*(visible_of(query, part) for part in body))


def visible_of(query, part):
    kind = part[0]
    if kind == "triple":
        return {slot[1] for slot in (part[1], part[3]) if slot[0] == "variable"} | variables_of_way(part[2])
    if kind in ("filter", "exists", "minus"):
        return set()
    if kind == "bind":
        return {part[1]}
    if kind == "values":
        return set(part[1])
    if kind == "sub":
        return set(projected(query, part[1]))
    own = {part[1][1]} if kind == "graph" and part[1][0] == "variable" else set()
    return own.union(*(visible(query, inner) for inner in groups_in(part)))


def projected(query, select):
    """What a SELECT projects: under `*` all names that are visible, in the order of their first places in the text."""
    if select["star"]:
        return sorted(v for v in visible(query, select["body"]) if is_given(query, v))
    return [variable for variable, _ in select["items"]]


def unknown(select, before, e):
    """The variables that a grouped SELECT names where it mayn't, behind these items."""
    known = [v for v, _ in select["keys"]] + [v for v, made in before if made]
    known += [place for place, *_ in select["aggregates"]]
    return [v for v in variables_in(e) if v not in known] if select["grouped"] else []


def lack_of_key(select):
    return "no key" if select["keys"] else "no GROUP BY"


def item_faults(select, inside, before, variable, e):
    keys, shown = [v for v, _ in select["keys"]], [v for v, _ in before]
    if e is None:
        is_known = variable in keys or any(v == variable and made for v, made in before)
        if variable in shown:
            yield "shown twice", variable
        elif select["grouped"] and not is_known:
            yield lack_of_key(select), variable
        return
    yield from ((lack_of_key(select), v) for v in unknown(select, before, e))
    if variable in inside or variable in shown + keys:
        yield "made in SELECT", variable


def faults_of_group(query, body):
    for place, part in enumerate(body):
        if part[0] == "bind" and part[1] in visible(query, body[:place]):
            yield "made by BIND", part[1]
        if part[0] == "sub":
            yield from scope_faults(query, part[1])
        for inner in groups_in(part):
            yield from faults_of_group(query, inner)


def scope_faults(query, select):
    """Each with what it is, in the order of the text; `*` where it stands in a grouped SELECT."""
    inside = visible(query, select["body"])
    if select["star"] and select["grouped"]:
        yield "all shown", select["star"]
    for place, (variable, e) in enumerate(select["items"]):
        yield from item_faults(select, inside, select["items"][:place], variable, e)
    yield from faults_of_group(query, select["body"])
    for place, (variable, e) in enumerate(select["keys"]):
        if e and (variable in inside or variable in [v for v, _ in select["keys"][:place]]):
            yield "made as a key", variable
    if select["having"]:
        yield from (("no key in HAVING", v) for v in unknown(select, select["items"], select["having"]))


# ---- all


def fault(query):
    """The first reason why no tree can be made of the query, with its detail; None where one can."""
    at = graph_shape(query)
    if at is not None:
        return "GraphShape", at
    at = first(exists_faults(query["select"]["body"]))
    if at is not None:
        return "ExistsShape", at
    found = first(scope_faults(query, query["select"]))
    if found is not None:
        return "Scope", found[1] if found[1] == "*" else query["variables"][found[1]][2]
    return None
