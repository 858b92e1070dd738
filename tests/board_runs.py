"""A board that runs, its input, and pages that only read: what the checks of the board share."""
import contextlib
import json
import select
import socket
import subprocess
import sys
import time

from documents import TOP

BOARD = f"{TOP}/tools/board"
SECONDS = 60
# how deep Python lets calls be nested in a process that has just begun
DEPTH = 1000
XSD = "http://www.w3.org/2001/XMLSchema#"


class Failed(Exception):
    """What is wanted isn't so, as it is told."""


def need(holds, text):
    if not holds:
        raise Failed(text)


def iri(value):
    return {"type": "uri", "value": value}


def decimal(value):
    return {"datatype": f"{XSD}decimal", "type": "literal", "value": str(value)}


def string(value):
    return {"type": "literal", "value": value}


def report(query, at, variables, *rows):
    """A report as the program writes it: each row as its terms, in the order of the variables; None is unbound."""
    bindings = [{name: term for name, term in zip(variables, row) if term} for row in rows]
    value = {"at": at, "head": {"vars": list(variables)}, "query": query, "results": {"bindings": bindings}}
    return json.dumps(value, separators=(",", ":"), ensure_ascii=False)


class Events:
    """A page that has no screen: what it is told of the top, and of each query, as it stands."""

    def __init__(self, port, **headers):
        self.socket = socket.create_connection(("127.0.0.1", port), SECONDS)
        self.socket.sendall(request("/events", port, **headers))
        self.buffer, self.top, self.queries, self.told, self.is_full = b"", None, {}, [], False
        self.head = self.next_part(b"\r\n\r\n")

    def next_part(self, end=b"\n\n", until=None):
        """What stands in front of the next end; None where the board has ended, or nothing comes in time."""
        until = until or time.monotonic() + SECONDS
        while True:
            part, sign, rest = self.buffer.partition(end)
            if sign:
                self.buffer = rest
                return part.decode()
            if not select.select([self.socket], [], [], max(0, until - time.monotonic()))[0]:
                return None
            more = self.socket.recv(1 << 20)
            if not more:
                return None
            self.buffer += more

    def take(self, until=None):
        """Takes the next message; whether there was one."""
        part = self.next_part(until=until)
        if part is None:
            return False
        kind, _, data = part.partition("\n")
        value = json.loads(data[len("data: "):])
        self.told.append((time.monotonic(), kind, value))
        if kind == "event: top":
            self.top = value
        elif kind == "event: query":
            self.queries[value["name"]] = value
        else:
            self.is_full = True
        return True

    def wait(self, is_so, seconds=SECONDS):
        """Takes messages until it is so."""
        until = time.monotonic() + seconds
        while not is_so(self):
            need(self.take(until), f"it isn't so after {seconds} seconds: the top is {self.top}")
        return self

    def wait_lines(self, number):
        """Takes messages until so many lines are told of, and each query is as they leave it."""
        return self.wait(lambda page: page.top and page.top["lines"] == number and page.is_whole())

    def is_whole(self):
        return sum(query["reports"] for query in self.queries.values()) == self.top["reports"] - self.top["others"]

    def close(self):
        self.socket.close()


def request(path, port, method="GET", host=None, **headers):
    """A request; a header's name has `_` for `-`."""
    lines = [f"{method} {path} HTTP/1.1", f"Host: {host or f'127.0.0.1:{port}'}"]
    lines += [f"{name.replace('_', '-')}: {value}" for name, value in headers.items()]
    return "".join(f"{line}\r\n" for line in [*lines, ""]).encode()


class Running:
    """A board that runs on a port that was free."""

    def __init__(self, *words, port=0, **streams):
        self.process = subprocess.Popen(
            [BOARD, "--port", str(port), *words], **{"stdin": subprocess.PIPE, "stderr": subprocess.PIPE, **streams}
        )
        self.said = self.process.stderr.readline().decode()
        if not self.said.startswith("tools/board: http://127.0.0.1:"):
            self.process.kill()
            raise Failed(f"it said {self.said}")
        self.address = self.said.split(" ")[1].strip()
        self.port = int(self.address.split(":")[2].strip("/"))

    def give(self, *lines):
        """Gives lines of its input."""
        for line in lines:
            self.process.stdin.write((line if isinstance(line, bytes) else line.encode("utf-8", "surrogatepass")) + b"\n")
        self.process.stdin.flush()

    def end_input(self):
        self.process.stdin.close()

    def events(self, **headers):
        return Events(self.port, **headers)

    def answer(self, sent):
        """All that is answered to these bytes."""
        with socket.create_connection(("127.0.0.1", self.port), SECONDS) as there:
            there.sendall(sent)
            got = b""
            while True:
                more = there.recv(1 << 16)
                if not more:
                    return got
                got += more

    def memory(self):
        """The memory that it holds, in KiB."""
        with open(f"/proc/{self.process.pid}/status") as file:
            return next(int(line.split()[1]) for line in file if line.startswith("VmRSS:"))


@contextlib.contextmanager
def a_board(*words, **streams):
    """A board, which is ended behind; it says nothing more on standard error but what `said` has."""
    board = Running(*words, **streams)
    try:
        yield board
    finally:
        board.process.kill()
        board.process.wait()
        for stream in (board.process.stdin, board.process.stdout, board.process.stderr):
            if stream and not stream.closed:
                with contextlib.suppress(OSError):
                    stream.close()


def ended(*words, given=b"", **streams):
    """A run that ends by itself: its status, its output, and what it said."""
    ran = subprocess.run(
        [BOARD, *words], timeout=SECONDS, **({"input": given} if "stdin" not in streams else {}),
        **{"stdout": subprocess.PIPE, "stderr": subprocess.PIPE, **streams}
    )
    return ran.returncode, ran.stdout, (ran.stderr or b"").decode()


@contextlib.contextmanager
def usual_depth():
    """Calls may be nested as deep as in a process that has just begun: the models of the tests, which stand beside, allow more."""
    before = sys.getrecursionlimit()
    sys.setrecursionlimit(DEPTH)
    try:
        yield
    finally:
        sys.setrecursionlimit(before)


def checked(*checks):
    """Each check, a function, by the first line of what it says of itself, and what it found wrong; so is whatever ends it."""
    for check in checks:
        name = check.__doc__.split("\n")[0].rstrip(".")
        try:
            with usual_depth():
                check()
            yield f"tools/board: {name}", None
        except Exception as why:
            yield f"tools/board: {name}", f"{type(why).__name__}: {why}"[:1000]

