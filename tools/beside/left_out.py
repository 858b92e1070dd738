"""REGEX, which isn't in the grammar: what one writes in place of a call, by its pattern. Of other functions QUERIES has a table."""
import re

REGEX = re.compile(r"""(?is)REGEX\s*\(\s*([^"']+?)\s*,\s*(?:"([^"\\]*)"|'([^'\\]*)')\s*(,)?""")


def of_regex(text):
    """A pattern is a fixed text, maybe with `^` or `$`; else nothing does it. None where the call can't be read."""
    found = REGEX.match(text)
    if not found:
        return None
    argument, pattern = found[1], found[2] if found[2] is not None else found[3]
    fixed = pattern.lstrip("^")[:-1] if pattern.endswith("$") else pattern.lstrip("^")
    if found[4] or re.search(r"[][.*+?(){}|^$]", fixed) or not fixed:
        return "nothing tests a pattern here: CONTAINS, STRSTARTS and STRENDS take fixed texts, letter by letter"
    is_front, is_end = pattern.startswith("^"), pattern.endswith("$")
    if is_front and is_end:
        return f"`{argument} = \"{fixed}\"`"
    return f"`{'STRSTARTS' if is_front else 'STRENDS' if is_end else 'CONTAINS'}({argument}, \"{fixed}\")`"
