"""What `tools/model` answers: the program's bytes and status on each row that is no log, and on the logs of the examples.

On all logs of the rows the model is compared by `tests/model.py --rows`, which takes some minutes.
"""
import contextlib
import os
import shutil
import subprocess
import sys
import tempfile

from documents import SECONDS, TOP

sys.path.insert(0, f"{TOP}/tools")
from beside import modelling  # noqa: E402

# of rows of `gen` those of so many events at most
MOST_EVENTS = 1000


def is_tried(row):
    if row.words[:1] == [b"gen"]:
        return len(row.words) != 2 or not row.words[1].isdigit() or int(row.words[1]) <= MOST_EVENTS
    return row.words[:1] != [b"events"] or row.name.startswith("examples/")


@contextlib.contextmanager
def within(row):
    """A folder of its own with the files of the row, which is the process's, and the row's input as standard input."""
    before, standard = os.getcwd(), os.dup(0)
    with tempfile.TemporaryDirectory(prefix="rsp-model-") as room, tempfile.TemporaryFile() as given:
        given.write(row.input)
        given.seek(0)
        shutil.copytree(row.files, f"{room}/files") if row.files else os.mkdir(f"{room}/files")
        os.chdir(f"{room}/files")
        os.dup2(given.fileno(), 0)
        try:
            yield
        finally:
            os.dup2(standard, 0)
            os.close(standard)
            os.chdir(before)


def fault(row):
    """What differs between the model's answer and what the row wants, or None."""
    with within(row):
        found = modelling.answer([os.fsdecode(word) for word in row.words])
    if (found.output, found.status) == (row.output, row.status):
        return None
    return f"status {found.status}, and {row.status} is wanted; it gives {found.output[:400]}"


def fault_of_process(status, **streams):
    """What is wrong with a log's run as a process of its own, between such streams, or None. It says no more than two lines."""
    ran = subprocess.run([f"{TOP}/tools/model", "events"], stderr=subprocess.PIPE, timeout=SECONDS, **streams)
    said = ran.stderr.decode().splitlines()
    is_good = ran.returncode == status and len(said) == 2 and all(line.startswith("model: ") for line in said)
    return None if is_good else f"status {ran.returncode}, and {status} is wanted; it said {said}"


def faults_of_streams():
    """Input and output that fail, each as its name and what is wrong with the run."""
    folder = os.open(TOP, os.O_RDONLY | os.O_DIRECTORY)
    yield "from a folder", fault_of_process(3, stdin=folder, stdout=subprocess.DEVNULL)
    os.close(folder)
    with open(f"{TOP}/examples/first/log", "rb") as log, open("/dev/full", "wb") as full:
        yield "to a full device", fault_of_process(4, stdin=log, stdout=full)


def checks(rows):
    """Each check as its name and what it found wrong."""
    for row in filter(is_tried, rows):
        yield f"{row.name}, by tools/model", fault(row)
    for name, wrong in faults_of_streams():
        yield f"tools/model {name}", wrong
