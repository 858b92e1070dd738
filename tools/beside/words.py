"""The words of the program, as the tools take them: `events`, `run` or `check`, with their options and files."""
import re
from collections import namedtuple

MOST_STREAMS, MOST_SLACK = 16, 86_400_000
OPTIONS = {"events": ("--json", "--slack"), "run": ("--json", "--store"), "check": ()}

# `log` is the word behind `events`, which only a tool has that doesn't read the log from standard input
Words = namedtuple("Words", "mode query streams store log slack", defaults=[None, (), None, None, 0])
Stream = namedtuple("Stream", "name file")


class WrongWords(Exception):
    """The words are none that the program has."""


def parsed(words, has_log=False):
    """What the words ask for; WrongWords for all others. With `has_log` the word behind `events` names the log's file."""
    mode = words[0] if words else None
    if mode not in OPTIONS:
        raise WrongWords
    values, options = split(words[1:], OPTIONS[mode])
    if mode == "events" and len(values) == int(has_log):
        return Words(mode, log=named(values[0]) if has_log else None, slack=slack(options.get("--slack", "0")))
    if mode == "check" and len(values) == 1:
        return Words(mode, named(values[0]))
    if mode == "run" and 2 <= len(values) <= MOST_STREAMS + 1:
        store = options.get("--store")
        return Words(mode, named(values[0]), [stream(word) for word in values[1:]], None if store is None else named(store))
    raise WrongWords


def split(words, known):
    """The values and the options. An option stands anywhere before `--`, at most once."""
    values, options, rest, is_over = [], {}, iter(words), False
    for word in rest:
        name, has_value, value = word.partition("=")
        if word == "--" and not is_over:
            is_over = True
        elif is_over or name not in known or (name == "--json" and has_value):
            values.append(word)
        elif name in options:
            raise WrongWords
        else:
            options[name] = None if name == "--json" else value if has_value else next(rest, "")
    return values, options


def named(word):
    """A file's name: at least one byte, and no dash at the front."""
    if not word or word.startswith("-"):
        raise WrongWords
    return word


def slack(word):
    """By how many milliseconds an item may be behind the latest one."""
    if not re.fullmatch("[0-9]{1,20}", word) or int(word) > MOST_SLACK:
        raise WrongWords
    return int(word)


def stream(word):
    """A stream and its file, which stands behind the last `=`."""
    name, sign, file = word.rpartition("=")
    if not sign or not re.fullmatch(r'[A-Za-z][A-Za-z0-9+.-]*:[^\x00-\x20<>"{}|^`\\\udc80-\udcff]*', name):
        raise WrongWords
    return Stream(name.encode(), named(file))
