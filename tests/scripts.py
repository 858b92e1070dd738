"""What `./rsp` and `./try` do beside the program: its output and status pass through as they are, and hints stand on standard
error alone. They run in a room that has the program, and an `rt` that proves nothing: it says what the real one says, and hands
the program over.
"""
import contextlib
import os
import re
import shutil
import signal
import subprocess
import tempfile

from documents import SECONDS, TOP, read

USAGE = read(f"{TOP}/tests/rows/no-words/stdout")
EVENTS, RUN, CHECK, GEN = (f"  ./rsp {mode} " for mode in ("events", "run", "check", "gen"))
# three crates of which the program is made, and one of tests
CRATES = "rsp_tests: rsp_main\nrsp_main: rsp_steps rsp_spec\nrsp_steps: rsp_spec indexmap\nrsp_spec:\n"
# what stands in the place of the toolchain; FAILS makes it fail, in `try` as the real one says it; SLOW makes a library take so long
RT = """#!/bin/sh
crate=${PWD##*/}
case $1 in
version) echo "${KIT:-a kit of tests logic dac8208d650f15bf}" ;;
lib)
    [ -e out/rlib/stamp ] && echo "found $crate" >> "$SEEN" && exit
    [ "$FAILS$crate" = librsp_steps ] && echo "fn rsp_steps::tick: proved" && echo "fn rsp_steps::next: no proof" && exit 1
    sleep "${SLOW:-0}"
    mkdir -p out/rlib && echo built > out/rlib/stamp && echo "proved $crate" >> "$SEEN"
    ;;
run)
    [ "$FAILS" != run ] && mkdir -p out && cp "$PROGRAM" out/rsp_main && echo "proved $crate" >> "$SEEN"
    ;;
try)
    shift
    folder=$(mktemp -d) || exit 2
    while [ "$1" != -- ]; do
        mkdir -p "$folder/$(dirname "${2%%=*}")" && cp "${2#*=}" "$folder/${2%%=*}" && shift 2
    done
    shift && cd "$folder" || exit 2
    case $FAILS in
    minute | output | build) ;;
    *) "$PROGRAM" "$@" ;;
    esac
    ended=$?
    rm -rf "$folder"
    case $FAILS in
    minute) echo "checked: no-answer: the program did not end within the time limit" >&2 ;;
    output) echo "checked: no-answer: the program wrote more than 1048576 bytes to standard output" >&2 ;;
    build) echo "error: a name is unknown" >&2 ;;
    *) echo "checked: ended status=$ended" >&2 && echo "run=ended status=$ended runners=1 proved=no" >&2 && exit $ended ;;
    esac
    echo "run=no-answer proved=no" >&2
    exit 6
    ;;
esac
"""
SOURCES = [f"crates/{name}.rt" for name in ("rsp_tests/src/main", "rsp_main/src/main", "rsp_steps/src/lib", "rsp_spec/src/lib")]
# what the scripts name where there is no toolchain
WITHOUT_RT = "there is no rt on the path: README says what is needed; tools/model takes the same words, and needs Python alone"


class Room:
    """A repository with the scripts and without crates, and a folder from which they are called."""

    def __init__(self, folder, program):
        self.top, self.caller, self.seen = f"{folder}/top", f"{folder}/caller", f"{folder}/seen"
        self.program = f"{self.top}/crates/rsp_main/out/rsp_main"
        sources = [os.path.dirname(f"{self.top}/{path}") for path in SOURCES]
        for path in (f"{self.top}/tools", *sources, os.path.dirname(self.program), self.caller):
            os.makedirs(path)
        shutil.copytree(f"{TOP}/tools/beside", f"{self.top}/tools/beside", ignore=shutil.ignore_patterns("__pycache__"))
        for name in ("rsp", "try", "CHANGELOG.md"):
            shutil.copy(f"{TOP}/{name}", self.top)
        for name, text in (("crates.txt", CRATES), ("tools/rt", RT), *((path, "") for path in SOURCES)):
            with open(f"{self.top}/{name}", "w") as file:
                file.write(text)
        os.chmod(f"{self.top}/tools/rt", 0o755)
        shutil.copy(program, self.program)
        path = f"{self.top}/tools:{os.environ['PATH']}"
        self.env = {
            "PATH": path, "PROGRAM": program, "SEEN": self.seen, "XDG_CACHE_HOME": f"{folder}/cache", "GIT_CEILING_DIRECTORIES": folder
        }

    def without_rt(self):
        """A path with all that the scripts call but `rt`."""
        os.makedirs(f"{self.top}/bare", exist_ok=True)
        for name in ("bash", "sh", "dirname", "readlink", "find"):
            with contextlib.suppress(FileExistsError):
                os.symlink(shutil.which(name), f"{self.top}/bare/{name}")
        return f"{self.top}/bare"

    def built(self):
        """What the kit has been asked for since the last time, a crate a line: whether it was proved or found."""
        said = read(self.seen).decode().splitlines() if os.path.exists(self.seen) else []
        open(self.seen, "w").close()
        return said

    def begun(self, words, **env):
        """A run that goes on beside others, in a session of its own."""
        return subprocess.Popen(
            [f"{self.top}/rsp", *words], cwd=self.caller, env={**self.env, **env}, stdin=subprocess.DEVNULL, stdout=subprocess.PIPE,
            stderr=subprocess.PIPE, start_new_session=True
        )

    def make_stale(self):
        """Makes the program older than a source."""
        path = f"{self.top}/crates/rsp_main/src/main.rt"
        with open(path, "w"):
            pass
        earlier = os.stat(path).st_mtime - 1
        os.utime(self.program, (earlier, earlier))

    def run(self, script, words, given=b"", folder=None, **env):
        command = [f"{self.top}/{script}", *words]
        try:
            return subprocess.run(
                command, cwd=folder or self.caller, env={**self.env, **env}, input=given, capture_output=True, timeout=SECONDS
            )
        except subprocess.TimeoutExpired:
            return subprocess.CompletedProcess(command, None, b"", b"it hadn't ended")


@contextlib.contextmanager
def a_room(program):
    with tempfile.TemporaryDirectory(prefix="rsp-scripts-") as folder:
        yield Room(folder, program)


def fault(ran, output, status, hints):
    """What is wrong with a run, or None. Each line of standard error has its hint in it, and there are no others."""
    said = ran.stderr.decode().splitlines()
    if ran.returncode != status or ran.stdout != output:
        return f"status {ran.returncode}, and {status} is wanted; it printed {ran.stdout[:200]}"
    if len(said) != len(hints) or any(hint not in line for hint, line in zip(hints, said)):
        return f"it said {said} to standard error, and {hints} is wanted"
    return None


def fault_of_row(room, row):
    """A row by `./rsp`: the same bytes and status, and no hint but at the statuses 2 and 3."""
    with tempfile.TemporaryDirectory(prefix="rsp-row-") as folder:
        if row.files:
            shutil.copytree(row.files, folder, dirs_exist_ok=True)
        ran = room.run("rsp", row.words, row.input, folder, RSP_STALE="1")
    if ran.stdout != row.output or ran.returncode != row.status:
        return f"status {ran.returncode}, and {row.status} is wanted; it printed {ran.stdout[:200]}"
    # at 2 the word that is wrong may be told before the row
    hints = {2: rb"(?s)(rsp: .*\n)?  ./rsp ", 3: b"rsp: no file that can be read: "}
    good = re.match(hints[row.status], ran.stderr) if row.status in hints else not ran.stderr
    return None if good else f"it said {ran.stderr[:200]} to standard error"


# words that are none, the rows that are said of them, and before them which word is wrong and why
IRI, FILE = "is no absolute IRI, as http://example.org/in is one", "so it names no file"
WRONG_WORDS = [
    (["frob"], [EVENTS, RUN, CHECK, GEN], "`frob` is no mode"),
    (["chek", "q.rq"], [CHECK], "`chek` is no mode"),
    (["events", "--csv"], [EVENTS], "`--csv` is no option of `events`"),
    (["events", "log"], [EVENTS], "`log` is a word too many: a log comes on standard input, as `events < log`"),
    (["events", "--", "--json"], [EVENTS], "`--json` is a word too many: `--` ends the options"),
    (["events", "--json", "--json"], [EVENTS], "`--json` is an option that stands twice"),
    (["events", "--slack", "5s"], [EVENTS], "`5s` is no slack: 0 to 86400000 milliseconds are wanted"),
    (["events", "--slack=86400001"], [EVENTS], "`86400001` is no slack"),
    (["events", "--slack"], [EVENTS], "`` is no slack"),
    (["run"], [RUN], "the file of the query is wanting"),
    (["run", "q.rq"], [RUN], "no stream is named"),
    (["run", "q.rq", "r.nq"], [RUN], "`r.nq` has no `=`: a stream's IRI and its file are wanted"),
    (["run", "q.rq", "r=r.nq"], [RUN], f"`r` in `r=r.nq` {IRI}"),
    (["run", "q.rq", "h:a=a.nq", "h:b c=r.nq"], [RUN], f"`h:b c` in `h:b c=r.nq` {IRI}"),
    (["run", "q.rq", "<h:a>=a.nq"], [RUN], "`<h:a>` in `<h:a>=a.nq` stands in brackets"),
    (["run", "q.rq", "h:a=-"], [RUN], f"`-` begins with `-`, {FILE}, in `h:a=-`"),
    (["run", "--store", "-s", "q.rq", "h:a=a.nq"], [RUN], f"`-s` begins with `-`, {FILE}, behind `--store`"),
    (["run", "--json", "q.rq", "--json", "h:a=a.nq"], [RUN], "`--json` is an option that stands twice"),
    (["run", "q.rq", *(f"h:{n}=a.nq" for n in range(17))], [RUN], "`h:16=a.nq` is a stream too many: 16 may be"),
    (["check"], [CHECK], "the file of the query is wanting"),
    (["check", "q.rq", "r.rq"], [CHECK], "`r.rq` is a word too many"),
    (["check", "--json"], [CHECK], f"`--json` begins with `-`, {FILE}"),
    (["gen", "many"], [GEN], "`many` is no count: one number from 1 to 1000000 is wanted"),
]


def hints(room):
    """Words, the output and the status, and the lines on standard error."""
    query = f"{room.caller}/q.rq"
    shutil.copy(f"{TOP}/examples/sensors/averages.rq", query)
    yield "help", ["--help"], USAGE, 2, [EVENTS, RUN, CHECK, GEN]
    yield "help by a letter", ["-h"], USAGE, 2, [EVENTS, RUN, CHECK, GEN]
    yield "the version", ["--version"], USAGE, 2, [f"rsp: version {version()}, commit unknown, a kit of tests logic dac8208d650f15bf"]
    yield "no words", [], USAGE, 2, [EVENTS, RUN, CHECK, GEN]
    for words, rows, why in WRONG_WORDS:
        yield f"wrong words {words}", words, USAGE, 2, [f"rsp: {why}", *rows]
    yield "a query that isn't there", ["check", "p.rq"], b"", 3, ["rsp: no file that can be read: p.rq"]
    yield "a stream that isn't there", ["run", "q.rq", "s:a=a=b.nq"], b"", 3, ["rsp: no file that can be read: s:a=a=b.nq"]
    store = ["run", "--json", "--store=p.nq", "q.rq", "s:a=q.rq"]
    yield "a store that isn't there", store, b"", 3, ["rsp: no file that can be read: --store=p.nq"]
    yield "a folder as a query", ["check", "--", "."], b"", 3, ["rsp: no file that can be read: ."]
    yield "a file whose read fails", ["check", "/proc/self/mem"], b"", 3, ["couldn't be read to its end"]
    yield "a file that can be read", ["check", "q.rq"], b"ok\n", 0, []


def version():
    """The number of the newest version in the change log."""
    return re.search(r"^## (\d[\d.]*)", read(f"{TOP}/CHANGELOG.md").decode(), re.M)[1]


def builds(room):
    """`./rsp` where the program isn't there or is older than a source, each as its name and what is wrong with it."""
    log, wanted = read(f"{TOP}/examples/first/log"), read(f"{TOP}/examples/first/stdout")
    begins, ends = "rsp: proves and builds 3 crates, up to ", "rsp: 3 crates in "
    done = [f"rsp: {at} of 3 crates, " for at in (1, 2, 3)]
    failed = ["rsp: rsp_steps failed", "rsp: rsp_steps isn't proved", "fn rsp_steps::next: no proof", "/said/rsp_steps"]
    unlinked = ["rsp: rsp_main failed", "rsp: rsp_main isn't proved", "/said/rsp_main"]
    os.remove(room.program)
    yield "a crate that can't be proved", fault(room.run("rsp", ["events"], log, FAILS="lib"), b"", 125, [begins, done[0], *failed])
    unlinks = room.run("rsp", ["events"], log, FAILS="run")
    yield "a program that can't be linked", fault(unlinks, b"", 125, [begins, *done[:2], *unlinked])
    yield "what was proved stays", unlike(room.built(), ["proved rsp_spec", "found rsp_spec", "proved rsp_steps"])
    lacks = room.run("rsp", ["events"], log, PATH=room.without_rt())
    yield "a build without a toolchain", fault(lacks, b"", 125, [f"rsp: {WITHOUT_RT}"])
    first = "rsp: the first run proves and builds the program, and goes on where that was broken off; ./try "
    yield "help builds nothing", fault(room.run("rsp", ["--help"]), USAGE, 2, [EVENTS, RUN, CHECK, GEN, first])
    told = [begins, *done, ends]
    yield "stale where nothing was built", fault(room.run("rsp", ["events"], log, RSP_STALE="1"), wanted, 0, told)
    yield "a program that is newer than its sources", fault(room.run("rsp", ["events"], log), wanted, 0, [])
    room.make_stale()
    stale = ["rsp: sources are newer than the program"]
    yield "a stale program", fault(room.run("rsp", ["events"], log, RSP_STALE="1"), wanted, 0, stale)
    other = ["rsp: rt is `rattle-kit-1 logic 0`, and these sources were proved with `", *told]
    yield "another logic", fault(room.run("rsp", ["events"], log, KIT="rattle-kit-1 logic 0"), wanted, 0, other)
    yield from builds_beside(room)


def builds_beside(room):
    """Builds that are broken off, and two at once, in a cache of their own."""
    env = {"XDG_CACHE_HOME": f"{room.caller}/cache", "SLOW": "0.5"}
    # what a shell begins in the background ignores it, and so would what is begun here
    signal.signal(signal.SIGINT, signal.default_int_handler)
    room.make_stale()
    room.built()
    first = room.begun(["events"], **env)
    until_said(first, b"1 of 3 crates")
    os.killpg(first.pid, signal.SIGINT)
    said = first.communicate(timeout=SECONDS)[1]
    yield "a build that is broken off says so", None if b"broken off; what was proved stays" in said else f"it said {said}"
    yield "a build that is broken off leaves what was proved", unlike(room.built(), ["proved rsp_spec"])
    runs = [room.begun(["events"], **env), room.begun(["events"], **env)]
    said = [run.communicate(timeout=SECONDS)[1] for run in runs]
    waited = sum(b"another ./rsp builds these sources" in it for it in said)
    yield "two builds at once", unlike([run.returncode for run in runs] + [waited], [0, 0, 1])
    yield "two builds at once go on, and prove each crate once", unlike(
        room.built(), ["found rsp_spec", "proved rsp_steps", "proved rsp_main"])


def until_said(process, what):
    """Reads the standard error of a process up to a line that has this."""
    for line in process.stderr:
        if what in line:
            return


def unlike(got, wanted):
    return None if got == wanted else f"it is {got}, and {wanted} is wanted"


def tries(room):
    """`./try`: the program's output and status, and each time what it doesn't do."""
    log, wanted = read(f"{TOP}/examples/first/log"), read(f"{TOP}/examples/first/stdout")
    says = ["try: builds the program in about a minute, without its proofs: this run proves nothing"]
    stands = [*says, "try: a proved program stands here: ./rsp with the same words starts at once"]
    yield "an unproved run where a proved one could be", fault(room.run("try", ["events"], log), wanted, 0, stands)
    room.make_stale()
    yield "an unproved run", fault(room.run("try", ["events"], log), wanted, 0, says)
    yield "an unproved run with wrong words", fault(room.run("try", ["frob"]), USAGE, 2, says)
    example = f"{TOP}/examples/sensors"
    words = read(f"{example}/words").decode().splitlines()
    yield "an unproved run on the caller's files", fault(
        room.run("try", words, folder=example), read(f"{example}/stdout"), 0, says)
    beside = [word.replace("averages.rq", "../sensors/averages.rq").replace("=north", f"={example}/north") for word in words]
    yield "an unproved run on files elsewhere", fault(
        room.run("try", beside, folder=example), read(f"{example}/stdout"), 0, says)
    yield "an unproved run on a file that isn't there", fault(room.run("try", ["check", "p.rq"]), b"", 3, says)
    lacks = room.run("try", ["events"], log, PATH=room.without_rt())
    yield "a try without a toolchain", fault(lacks, b"", 125, [f"try: {WITHOUT_RT}"])
    for fails, hints in tries_that_end().items():
        yield f"a try: {fails}", fault(room.run("try", ["events"], log, FAILS=fails), b"", 125, says + hints)


def tries_that_end():
    """By what the kit gives no output, and what `./try` says of it beside its first line."""
    instead = "give it fewer items, or take tools/model or ./rsp"
    return {
        "minute": [f"try: the run hadn't ended after a minute, so none of its output is here: {instead}"],
        "output": [f"try: the output is more than 1 MiB, so none of it is here: {instead}"],
        "build": ["error: a name is unknown", "run=no-answer proved=no", "try: the kit has built no program, or stopped it"],
    }


def checks(program, rows):
    """Each check as its name and what it found wrong."""
    with a_room(program) as room:
        for row in rows:
            yield f"{row.name}, by ./rsp", fault_of_row(room, row)
        for name, words, output, status, wanted in hints(room):
            yield f"./rsp: {name}", fault(room.run("rsp", words), output, status, wanted)
        for name, wrong in [*builds(room), *tries(room)]:
            yield f"the scripts: {name}", wrong
