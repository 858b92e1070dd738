"""The server: the page, and its events, for this machine alone."""
import http.server
import select
import socket
import threading

from .page import PAGE, POLICY
from .publishing import event

ADDRESS = "127.0.0.1"
# seconds in which a request has to come, and in which a page has to take what it is sent
REQUEST_SECONDS, TAKE_SECONDS = 10, 30
# seconds after which it is looked whether a page is still open
LOOK_SECONDS = 1
MOST_CONNECTIONS = 128


class Server(http.server.ThreadingHTTPServer):
    """A thread for each connection, of which there are no more than a limit: further ones are closed."""

    daemon_threads = True
    request_queue_size = 64

    def __init__(self, port, publisher):
        self.publisher = publisher
        self.room = threading.BoundedSemaphore(MOST_CONNECTIONS)
        super().__init__((ADDRESS, port), Handler)
        port = self.server_port
        self.address = f"http://{ADDRESS}:{port}/"
        self.hosts = {f"{name}:{port}" for name in (ADDRESS, "localhost")} | ({ADDRESS, "localhost"} if port == 80 else set())

    def server_bind(self):
        """As http.server has it, but without asking for this machine's name."""
        self.socket.setsockopt(socket.SOL_SOCKET, socket.SO_REUSEADDR, 1)
        self.socket.bind(self.server_address)
        self.server_name, self.server_port = self.socket.getsockname()

    def verify_request(self, request, client_address):
        return self.room.acquire(blocking=False)

    def process_request_thread(self, request, client_address):
        try:
            super().process_request_thread(request, client_address)
        finally:
            self.room.release()

    def handle_error(self, request, client_address):
        """A page that goes away is no fault."""


class Handler(http.server.BaseHTTPRequestHandler):
    """A request. Only GET is answered, and only where the host is this machine."""

    timeout = REQUEST_SECONDS

    def parse_request(self):
        if not super().parse_request():
            return False
        refused = self.refusal()
        if refused:
            self.send_error(*refused)
        return not refused

    def refusal(self):
        """The status and the reason where the request is refused, or None."""
        hosts = self.headers.get_all("Host") or []
        if len(hosts) != 1 or hosts[0].lower() not in self.server.hosts:
            return 403, "this board serves its own machine alone"
        if self.command != "GET":
            return 405, "this board is only read"
        if self.path == "/events" and self.headers.get("Sec-Fetch-Site") in ("cross-site", "same-site"):
            return 403, "a page from elsewhere asks"
        return None

    def do_GET(self):
        if self.path == "/":
            self.answer(200, "text/html; charset=utf-8", PAGE)
        elif self.path == "/events":
            self.answer(200, "text/event-stream")
            self.send_events()
        else:
            self.send_error(404, "there is nothing here but /")

    def answer(self, status, kind, content=b""):
        self.send_response(status)
        for name, value in (
                ("Content-Type", kind), ("Content-Security-Policy", POLICY), ("X-Content-Type-Options", "nosniff"),
                ("Referrer-Policy", "no-referrer"), ("Cross-Origin-Resource-Policy", "same-origin"),
                ("Cache-Control", "no-store"), *([("Allow", "GET")] if status == 405 else [])):
            self.send_header(name, value)
        self.end_headers()
        self.wfile.write(content)

    def send_events(self):
        """All that is shown, then what changes, until the page or the board has ended."""
        self.connection.settimeout(TAKE_SECONDS)
        publisher = self.server.publisher
        with publisher.page() as has_room:
            if not has_room:
                self.wfile.write(event("full", None))
                return
            turn, is_over = 0, False
            while not is_over and not self.is_gone():
                is_over = publisher.is_over
                turn, messages = publisher.since(turn, LOOK_SECONDS)
                self.wfile.write(b"".join(messages))

    def is_gone(self):
        """The page has closed its connection; one that is open sends nothing more."""
        return bool(select.select([self.connection], [], [], 0)[0])

    def send_error(self, code, message=None, explain=None):
        """The reason as a text. A request that can't be read gets a status too."""
        self.close_connection, self.request_version = True, "HTTP/1.0"
        self.answer(code, "text/plain; charset=utf-8", f"{message or 'the request cannot be read'}\n".encode("utf-8", "replace"))

    def version_string(self):
        return "board"

    def log_message(self, *_):
        """Requests aren't told."""
