"""The server of `tools/board`, and what it tells its pages."""
import contextlib
import os
import re
import signal
import socket
import subprocess
import time

from beside.board import page, publishing
from board_runs import SECONDS, Events, a_board, decimal, iri, need, report, request
from documents import RECIPES

# seconds in which a connection is there, or a page has room
SOON = 10

# ---- the server


def status_of(answer):
    return int(answer.split(b" ", 2)[1])


def requests_are_refused():
    """only GET, only by this machine's name, only what there is, and no page from elsewhere"""
    with a_board() as board:
        port = board.port
        two = request("/", port).replace(b"\r\n\r\n", f"\r\nHost: 127.0.0.1:{port}\r\n\r\n".encode())
        cases = [(200, request("/", port, host=host)) for host in (None, f"localhost:{port}", f"LOCALHOST:{port}")]
        cases += [(403, request("/", port, host=host)) for host in (
            "example.org", f"example.org:{port}", "127.0.0.1", "localhost", f"127.0.0.1:{port + 1}",
            f"127.0.0.1.example.org:{port}", " ")]
        cases += [(403, b"GET / HTTP/1.1\r\n\r\n"), (403, two), (403, request("/events", port, host="example.org"))]
        methods = "POST", "HEAD", "PUT", "DELETE", "OPTIONS", "CONNECT", "TRACE", "FROB", "get"
        cases += [(405, request("/", port, method)) for method in methods]
        cases += [(404, request(path, port)) for path in ("/x", "/favicon.ico", "/events/", "/../", "/?x")]
        cases += [(403, request("/events", port, Sec_Fetch_Site=site)) for site in ("cross-site", "same-site")]
        cases += [(400, b"\0\xff\r\n\r\n"), (400, b"GET / HTTP/x\r\n\r\n")]
        cases += [(414, b"GET /" + b"x" * 70_000 + b" HTTP/1.1\r\n\r\n")]
        cases += [(431, request("/", port, **{f"h{number}": "x" for number in range(200)}))]
        for status, sent in cases:
            got = board.answer(sent)
            need(status_of(got) == status, f"{sent[:80]} gives {got[:80]}, and {status} is wanted")
            need(b"<" not in got.partition(b"\r\n\r\n")[2] or status == 200, f"{sent[:80]} gives markup")
        need(b"Allow: GET" in board.answer(request("/", port, "PUT")), "405 doesn't say what is allowed")
        need(board.process.poll() is None, "it has ended")


def this_machine_alone():
    """it listens at 127.0.0.1 and nowhere else"""
    with a_board() as board:
        for other in ("127.0.0.2", own_address()):
            try:
                socket.create_connection((other, board.port), SOON).close()
                need(other is None, f"it listens at {other}")
            except ConnectionRefusedError:
                pass


def own_address():
    """The address by which this machine would be known elsewhere; nothing is sent."""
    with socket.socket(socket.AF_INET, socket.SOCK_DGRAM) as there:
        try:
            there.connect(("192.0.2.1", 9))
            return there.getsockname()[0]
        except OSError:
            return "127.0.0.3"


def policy():
    """the page may load nothing from elsewhere, and its policy allows its own script and style alone"""
    with a_board() as board:
        head, _, body = board.answer(request("/", board.port)).partition(b"\r\n\r\n")
    need(body == page.PAGE, "the page is another one")
    sent = {name.lower(): value for name, _, value in (line.partition(": ") for line in head.decode().split("\r\n"))}
    rules = dict(rule.split(" ", 1) for rule in sent["content-security-policy"].split("; "))
    need(rules["default-src"] == "'none'" and rules["connect-src"] == "'self'", f"the policy is {rules}")
    need({"script-src", "style-src"} < set(rules), f"the policy is {rules}")
    need(all("unsafe" not in rule and "*" not in rule for rule in rules.values()), f"the policy is {rules}")
    need((sent["x-content-type-options"], sent["cache-control"]) == ("nosniff", "no-store"), f"{sent}")
    addresses = set(re.findall(rb"(?:https?:)?//[a-z][^\s\"'`]*", body)) - {b"http://www.w3.org/2000/svg"}
    need(not addresses, f"the page has the addresses {addresses}")
    makes_markup = re.search(rb"innerHTML|outerHTML|insertAdjacent|document\.write|eval\(|Function\(", body)
    need(not makes_markup, f"the page has {makes_markup}")


def idle_connections():
    """connections that ask nothing hold nobody back, and more than so many are closed"""
    with a_board() as board:
        idle = [socket.create_connection(("127.0.0.1", board.port)) for _ in range(100)]
        board.events().wait(lambda events: events.top)
        idle += [socket.create_connection(("127.0.0.1", board.port)) for _ in range(100)]
        need(idle[-1].recv(1) == b"", "one too many isn't closed")
        for connection in idle:
            connection.close()
        time.sleep(1)
        need(status_of(board.answer(request("/", board.port))) == 200, "it doesn't answer again")


def pages_at_most():
    """32 pages are open at most; a further one is told so, and has room when one is closed"""
    with a_board() as board:
        there = [board.events().wait(lambda events: events.top) for _ in range(publishing.MOST_PAGES)]
        one_more = board.events()
        need(one_more.take() and one_more.is_full and not one_more.take(), f"one more is told {one_more.told}")
        there.pop().close()
        need(any(room_for_one(board) for _ in range(SOON * 5)), "there is no room when one is closed")
        board.give(report("q", 1, ["x"]))
        there[0].wait_lines(1)


def room_for_one(board):
    time.sleep(0.2)
    another = board.events()
    another.take()
    return not another.is_full


# ---- what pages are told


def all_then_changes():
    """a page gets all that is shown when it opens, and then what changed"""
    with a_board() as board:
        first = board.events()
        board.give(*(report(name, 1, ["x"], [iri(f"a:{name}")]) for name in "pqr"))
        first.wait_lines(3)
        second = board.events().wait_lines(3)
        need(second.told[0][1] == "event: top", "the top isn't the first")
        need(second.queries == first.queries and len(second.queries) == 3, f"it has {second.queries}")
        number = len(second.told)
        board.give(report("q", 2, ["x"]))
        second.wait_lines(4)
        later = [value["name"] for _, kind, value in second.told[number:] if kind == "event: query"]
        need(later == ["q"], f"it is told {later}")


def four_times_a_second():
    """at most four times a second for each query, and within a second"""
    with a_board() as board:
        there = board.events().wait(lambda events: events.top)
        began = time.monotonic()
        for number in range(300):
            board.give(report("q", number, ["x"]))
            time.sleep(0.01)
        spent = time.monotonic() - began
        there.wait_lines(300)
        times = [at for at, kind, _ in there.told if kind == "event: query"]
        need(len(times) <= 4 * spent + 2, f"in {spent} seconds it is told {len(times)} times")
        need(len(times) >= spent, f"in {spent} seconds it is told {len(times)} times alone")


def pages_that_are_never_read():
    """pages that are never read hold nothing back"""
    with a_board() as board:
        never = [board.events() for _ in range(8)]
        rows = [[iri(f"http://example.org/{number:0>60}"), decimal(number)] for number in range(200)]
        there = board.events()
        for number in range(500):
            board.give(report(f"q{number % 50}", number, ["x", "n"], *rows))
        there.wait_lines(500)
        need(len(there.queries) == 50 and all(page.top is None for page in never), "not all came")
        for page in never:
            page.close()


def memory_stays():
    """what is kept doesn't grow with the input"""
    held = []
    with a_board("--alarm", "n") as board:
        there = board.events()
        for upto in (8_000, 32_000):
            for number in range(there.top["lines"] if there.top else 0, upto, 4):
                new = f"a:{number}"
                board.give(report("q", number, ["x", "n"], [iri(new), decimal(number)]), report("n", number, ["x"], [iri(new)]))
                board.give(f"# refused block {number + 1} 15 Late time=1 next={number + 2}", f"bad {number}")
            there.wait_lines(upto)
            held.append(board.memory())
    need(held[1] < held[0] + 8192, f"after 8,000 and 32,000 lines it holds {held} KiB")


# ---- behind a broker

def behind_mosquitto():
    """the recipe of mosquitto shows what comes on a topic"""
    with broker() as port:
        publish = ["mosquitto_pub", "-p", str(port), "-t", "reports", "-q", "1", "-r", "-m", report("q", 1, ["x"], [iri("a:1")])]
        subprocess.run(publish, check=True, timeout=SECONDS)
        script = [f"{RECIPES}/mosquitto/board", "-p", str(port)]
        env = {**os.environ, "BOARD": "--port 0 --news q"}
        shown_by = subprocess.Popen(script, env=env, stderr=subprocess.PIPE, start_new_session=True)
        try:
            address = shown_by.stderr.readline().decode().split()[-1]
            there = Events(int(address.split(":")[2].strip("/"))).wait_lines(1)
            need(there.queries["q"]["kind"] == "news" and there.queries["q"]["at"] == 1, f"{there.queries}")
        finally:
            os.killpg(shown_by.pid, signal.SIGTERM)
            shown_by.wait()


@contextlib.contextmanager
def broker():
    """A broker of its own on this machine; its port."""
    with socket.socket() as free:
        free.bind(("127.0.0.1", 0))
        port = free.getsockname()[1]
    path = f"{os.environ['PATH']}:/usr/sbin"
    process = subprocess.Popen(
        ["mosquitto", "-p", str(port)], env={"PATH": path}, stdout=subprocess.DEVNULL, stderr=subprocess.DEVNULL)
    try:
        for _ in range(SOON * 10):
            with contextlib.suppress(ConnectionRefusedError):
                socket.create_connection(("127.0.0.1", port)).close()
                break
            time.sleep(0.1)
        yield port
    finally:
        process.terminate()
        process.wait()


CHECKS = (
    requests_are_refused, this_machine_alone, policy, idle_connections, pages_at_most, all_then_changes, four_times_a_second,
    pages_that_are_never_read, memory_stays)
