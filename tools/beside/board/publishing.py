"""What pages are told: each query as it is, in turns at least a quarter of a second apart, put in words once for all pages."""
import contextlib
import json
import threading
import time

MOST_PAGES = 32
# seconds between two turns
PAUSE = 0.25


def event(name, value):
    """A server-sent event. All signs beyond ASCII are escaped, so that no text ends a line or fails to be written."""
    return f"event: {name}\ndata: {json.dumps(value, separators=(',', ':'))}\n\n".encode()


class Publisher:
    """The last message of each query and of the top, each with the turn in which it was made. A page asks for those that it
    hasn't got, in its own time, so that nothing waits for it and nothing is kept for it.
    """

    def __init__(self, board):
        self.board, self.condition = board, threading.Condition()
        self.messages, self.turn, self.pages, self.is_over = {}, 0, 0, False
        # held through a turn and the pause behind it
        self.turns = threading.Lock()

    def run(self):
        """Makes turns, as long as a page is open and something changes."""
        while not self.is_over:
            self.board.changes.wait()
            with self.condition:
                self.condition.wait_for(lambda: self.pages or self.is_over)
            with self.turns:
                self.publish()
                time.sleep(PAUSE)

    def publish(self):
        """Makes the messages of all that has changed, and wakes the pages."""
        self.board.changes.clear()
        made = {name: event("query", self.board.panel_shown(name)) for name in self.board.take_changed()}
        made[None] = event("top", self.board.top())
        with self.condition:
            self.turn += 1
            self.messages.update((name, (self.turn, message)) for name, message in made.items())
            self.condition.notify_all()

    def finish(self):
        """A last turn; pages get it and end."""
        with self.turns:
            self.publish()
        with self.condition:
            self.is_over = True
            self.condition.notify_all()
        self.board.changes.set()

    @contextlib.contextmanager
    def page(self):
        """A page that is open; whether there was room for it."""
        with self.condition:
            has_room = self.pages < MOST_PAGES
            self.pages += has_room
            self.condition.notify_all()
        try:
            yield has_room
        finally:
            with self.condition:
                self.pages -= has_room
                self.condition.notify_all()

    def since(self, turn, seconds):
        """The newest turn, and the messages made after the one that is given, that of the top in front; waits so long for one."""
        with self.condition:
            self.condition.wait_for(lambda: self.turn > turn or self.is_over, seconds)
            named = sorted(self.messages.items(), key=lambda message: message[0] is not None)
            return self.turn, [message for _, (made, message) in named if made > turn]

    def wait_for_pages(self, seconds):
        """Waits until no page is open, but no longer than so."""
        with self.condition:
            self.condition.wait_for(lambda: not self.pages, seconds)
