"""Runs that break off in the middle of a report, and go on by the recipe `again`: all that came out is the output of one run."""
import contextlib
import fcntl
import os
import resource
import signal
import subprocess
import threading

from documents import SECONDS, a_room, next_bytes, read, skipped

SCRIPT = "examples/recipes/again/script"
ROWS = 2000
# the bytes of the smallest pipe, which a report exceeds by far; and the request that sets them, which Python 3.8 doesn't name
PIPE, SET_PIPE_SIZE = 4096, 1031
QUERY = (
    "@register q\nREGISTER RSTREAM <q:o> AS SELECT ?x FROM NAMED WINDOW <w:1> ON <s:a> [RANGE PT10S] "
    "WHERE { WINDOW <w:1> { ?x <p:v> ?y } }\n@end\n"
)


def item(time, first):
    triples = "".join(f"<a:{number}> <p:v> <b:1> .\n" for number in range(first, first + ROWS))
    return f"@item <s:a> {time}\n{triples}@end\n"


# a query, and items with three reports, of which two come by the front; that ends in the middle of an item
BLOCKS = [QUERY, item(1000, 10000), item(11000, 20000), "@tick 9000\n", item(21000, 30000), item(22000, 30000), "@tick 30000\n"]
LOG = "".join(BLOCKS).encode()
BEHIND_FRONT = "".join(BLOCKS[5:]).encode()
FRONT = LOG[:-len(BEHIND_FRONT)] + BEHIND_FRONT[:1000]


class Room:
    """A folder with the program, the recipe, a file that keeps the log, and one that gets what comes out."""

    def __init__(self, folder, program):
        self.folder, self.program = folder, program
        self.kept, self.came = f"{folder}/kept", f"{folder}/came"
        self.whole = subprocess.run([program, "events"], input=LOG, stdout=subprocess.PIPE, timeout=SECONDS)
        output = self.whole.stdout
        self.middle = (output.index(b"# report q 20000") + output.index(b"# report q 30000")) // 2

    def begin(self, kept, came=b""):
        for path, content in ((self.kept, kept), (self.came, came)):
            with open(path, "wb") as file:
                file.write(content)

    def add(self, came):
        with open(self.came, "ab") as file:
            file.write(came)

    def run(self, given=b""):
        """The recipe; what comes out is added to what came before."""
        command = [f"{self.folder}/{SCRIPT}", "kept", "came"]
        with open(self.came, "ab") as out:
            return subprocess.run(
                command, cwd=self.folder, input=given, stdout=out, stderr=subprocess.PIPE, timeout=SECONDS
            )

    def fault_behind(self, rest=b""):
        """What is wrong when the recipe has gone on with the rest of the log, or None."""
        came = read(self.came)
        if came != self.whole.stdout[:len(came)] or abs(len(came) - self.middle) > 2 * PIPE:
            return f"what came out before it broke off, {len(came)} bytes, isn't a front in the middle of a report"
        ran = self.run(rest)
        if ran.returncode != self.whole.returncode or ran.stderr:
            return f"the recipe ended with {ran.returncode} and said {ran.stderr[:200]}"
        if read(self.came) != self.whole.stdout:
            return f"what came out isn't the output of one run: {read(self.came)[:200]}"
        return None if read(self.kept) == LOG else "the kept log isn't what was given"


@contextlib.contextmanager
def started(room, command, given, **more):
    """A command whose input comes and stays open, and of whose output a front was added to what came; with what reads on."""
    reading, writing = os.pipe()
    fcntl.fcntl(writing, SET_PIPE_SIZE, PIPE)
    process = subprocess.Popen(command, cwd=room.folder, stdin=subprocess.PIPE, stdout=writing, **more)
    os.close(writing)

    def feed():
        with contextlib.suppress(BrokenPipeError):
            process.stdin.write(given)
            process.stdin.flush()

    feeder = threading.Thread(target=feed)
    feeder.start()
    with open(reading, "rb", buffering=0) as reader:
        room.add(next_bytes(reader, room.middle))
        yield process, reader
    feeder.join(SECONDS)
    with contextlib.suppress(BrokenPipeError):
        process.communicate(timeout=SECONDS)


def behind_a_kill(room):
    room.begin(LOG)
    with started(room, [room.program, "events"], LOG) as (process, reader):
        process.kill()
        room.add(reader.read())
    return room.fault_behind() if process.returncode == -signal.SIGKILL else f"status {process.returncode}"


def behind_a_closed_pipe(room):
    room.begin(LOG)
    with started(room, [room.program, "events"], LOG) as (process, reader):
        reader.close()
    return room.fault_behind() if process.returncode == 4 else f"status {process.returncode}, and 4 is wanted"


def behind_a_full_file(room, ending, status):
    """The file may have no more bytes: the system ends the program by a signal, or the write fails where that is ignored."""
    room.begin(LOG)

    def limited():
        resource.setrlimit(resource.RLIMIT_CORE, (0, 0))
        resource.setrlimit(resource.RLIMIT_FSIZE, (room.middle, room.middle))
        signal.signal(signal.SIGXFSZ, ending)

    with open(room.came, "ab") as out:
        ran = subprocess.run([room.program, "events"], input=LOG, stdout=out, preexec_fn=limited, timeout=SECONDS)
    return room.fault_behind() if ran.returncode == status else f"status {ran.returncode}, and {status} is wanted"


def behind_a_kill_of_all(room):
    """The recipe with all that it has started is killed while a log comes in, within a block; that comes in once more."""
    room.begin(b"")
    command = [f"{room.folder}/{SCRIPT}", "kept", "came"]
    with started(room, command, FRONT, start_new_session=True) as (process, reader):
        os.killpg(process.pid, signal.SIGKILL)
        room.add(reader.read())
    return room.fault_behind(BEHIND_FRONT)


def behind_a_part_of_a_block(room):
    """A log whose writer was killed within a block."""
    room.begin(FRONT, room.whole.stdout[:room.middle])
    return room.fault_behind(BEHIND_FRONT)


def behind_another_output(room):
    """What came out before isn't of this log: nothing is added."""
    room.begin(LOG, b"# report q 10000 2001\n")
    ran = room.run()
    good = ran.returncode == 125 and b"isn't how the output of kept begins" in ran.stderr and len(read(room.came)) == 22
    return None if good else f"the recipe ended with {ran.returncode} and said {ran.stderr[:200]}"


def checks(program):
    """Each check as its name and what it found wrong, or which tool of the recipe is lacking."""
    lacking = skipped("again")
    if lacking:
        yield "a run that broke off is started again", lacking
        return
    with a_room(program) as folder:
        room = Room(folder, program)
        yield "started again behind a kill", behind_a_kill(room)
        yield "started again behind a closed pipe", behind_a_closed_pipe(room)
        yield "started again behind a file that is full", behind_a_full_file(room, signal.SIG_IGN, 4)
        at_limit = behind_a_full_file(room, signal.SIG_DFL, -signal.SIGXFSZ)
        yield "started again behind the signal at a file's limit", at_limit
        yield "started again behind a kill of all, as the log comes in", behind_a_kill_of_all(room)
        yield "started again behind a part of a block", behind_a_part_of_a_block(room)
        yield "not started again behind another output", behind_another_output(room)
