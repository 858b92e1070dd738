"""Files and standard input, read as far as the program reads them. What can't be read is said by name."""
import os
import sys

MOST_FILE_BYTES = 67_108_864


class Unreadable(Exception):
    """A file can't be read, for the reason that is told."""


class TooLong(Unreadable):
    """A file has more bytes than the program reads."""


class Unwritable(Unreadable):
    """A file can't be written, for the reason that is told."""


def told(error):
    return (error.strerror or str(error)) if isinstance(error, OSError) else str(error)


def file_of(name):
    """The bytes of a file that is named by a word."""
    try:
        with open(name, "rb") as file:
            content = file.read(MOST_FILE_BYTES + 1)
    except (OSError, ValueError) as error:
        raise Unreadable(f"{name}: {told(error)}") from None
    if len(content) > MOST_FILE_BYTES:
        raise TooLong(f"{name}: it has more than {MOST_FILE_BYTES} bytes, and the program reads no such file")
    return content


def opened(name):
    """A log that may be long, to be read line by line; without a name standard input."""
    try:
        return open(0 if name is None else name, "rb", closefd=name is not None)
    except (OSError, ValueError) as error:
        raise Unreadable(f"{name or 'standard input'}: {told(error)}") from None


def name_of_input():
    """The file that standard input is, by its shorter name, from here or from the root; `-` where it is none."""
    try:
        path = os.readlink("/proc/self/fd/0")
        return min(os.path.relpath(path), path, key=len) if os.path.isfile(path) else "-"
    except OSError:
        return "-"


def guarded(lines, name):
    """The lines of an input that may fail while it is read."""
    try:
        yield from lines
    except OSError as error:
        raise Unreadable(f"{name}: {told(error)}") from None


def complain(tool, text):
    """Says something on standard error, which no program has to read."""
    sys.stderr.write(f"{tool}: {text}\n".encode("utf-8", "replace").decode())
