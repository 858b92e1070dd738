"""The models are slow, and deep where a text is: what they work out is worked out in a process of its own, with a limit of time.

So a text on which a model would take hours, or all memory, or the whole stack, is one that it hasn't read, and nothing worse.
"""
import functools
import os
import pickle
import resource
import select
import signal
import threading
import time

# seconds of a processor, and of the clock where that has much else to do
SECONDS, MOST_WAIT = 10, 60
STACK, MEMORY = 512 << 20, 4 << 30


@functools.lru_cache(maxsize=512)
def within_limits(work, *values):
    """What the work gives of the values; None where it gives nothing in ten seconds, or fails."""
    reading, writing = os.pipe()
    child = os.fork()
    if child == 0:
        os.close(reading)
        work_alone(work, values, writing)
    os.close(writing)
    try:
        answer = bytes_until(reading, time.monotonic() + MOST_WAIT)
    finally:
        os.close(reading)
        os.kill(child, signal.SIGKILL)
        os.waitpid(child, 0)
    try:
        return pickle.loads(answer)
    except (EOFError, pickle.UnpicklingError):
        return None


def bytes_until(reading, deadline):
    """All that comes until the end of the input, or nothing where that hasn't come in time."""
    got = []
    while select.select([reading], [], [], max(0, deadline - time.monotonic()))[0]:
        piece = os.read(reading, 1 << 16)
        if not piece:
            return b"".join(got)
        got.append(piece)
    return b""


def work_alone(work, values, writing):
    """The child: it works on a large stack, hands on what it gives, and never comes back."""
    try:
        os.dup2(os.open(os.devnull, os.O_WRONLY), 2)
        resource.setrlimit(resource.RLIMIT_AS, (MEMORY, MEMORY))
        resource.setrlimit(resource.RLIMIT_CPU, (SECONDS, SECONDS))
        resource.setrlimit(resource.RLIMIT_CORE, (0, 0))
        threading.stack_size(STACK)
        worker = threading.Thread(target=lambda: hand_on(work(*values), writing))
        worker.start()
        worker.join()
    finally:
        os._exit(0)


def hand_on(value, writing):
    text = pickle.dumps(value)
    while text:
        text = text[os.write(writing, text):]
