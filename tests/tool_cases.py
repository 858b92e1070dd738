"""The cases of tests/tools: files of calls of the tools, each with its files, its input, and what it gives.

A file has cases, and each line that begins with one of these signs begins a part of a case, which goes up to the next one. A
blank line at the end of a part is none of it.

    == what the case shows
    $ lint run q.rq s:a=a.nq
    > q.rq      the lines of a file
    <           the lines of the input; without it the input is empty
    = 1         the status, and then the lines of the output
    !           the lines of standard error

Each case runs in a folder that holds its files alone. The input is a file too, `log`.
"""
import concurrent.futures
import os
import re
import shlex
import subprocess
import tempfile

TOP = os.path.dirname(os.path.dirname(os.path.realpath(__file__)))
FOLDER = f"{TOP}/tests/tools"
SECONDS = 120
MARK = re.compile(r"(==|\$|>|<|=|!)(?: (.*))?")


class Case:
    """A call of a tool, and what is wanted of it."""

    def __init__(self, name):
        self.name, self.words, self.files, self.input = name, [], {}, ""
        self.status, self.output, self.complaint = 0, "", None

    def take(self, sign, word, text):
        """Takes a part."""
        if sign == "$":
            self.words = shlex.split(word)
        elif sign == ">":
            self.files[word] = text
        elif sign == "<":
            self.input = text
        elif sign == "=":
            self.status, self.output = int(word), text
        else:
            self.complaint = text

    def run(self):
        """What the tool gives: its status, its output, and what it says on standard error."""
        with tempfile.TemporaryDirectory(prefix="rsp-tool-") as room:
            for name, text in {**self.files, "log": self.input}.items():
                with open(f"{room}/{name}", "w", encoding="utf-8", newline="", errors="surrogateescape") as file:
                    file.write(text)
            with open(f"{room}/log", "rb") as given:
                ran = subprocess.run(
                    [f"{TOP}/tools/{self.words[0]}", *self.words[1:]], cwd=room, stdin=given, capture_output=True, timeout=SECONDS
                )
        return ran.returncode, ran.stdout.decode(), ran.stderr.decode()

    def fault(self):
        """What is wrong, or None. Where it can't go on, it says so on standard error in any words."""
        try:
            status, output, said = self.run()
        except subprocess.TimeoutExpired:
            return f"it hadn't ended after {SECONDS} seconds"
        if (status, output) != (self.status, self.output):
            return f"status {status}, and it gave {output}"
        is_wanted = bool(said) == (status in (2, 3)) if self.complaint is None else said == self.complaint
        return None if is_wanted else f"it said {said}"


def cases_of(name):
    """The cases of a file, in order."""
    cases, parts = [], []
    with open(f"{FOLDER}/{name}", encoding="utf-8") as file:
        for line in file:
            mark = MARK.fullmatch(line.rstrip("\n"))
            if mark:
                parts.append((mark[1], mark[2], []))
            elif parts:
                parts[-1][2].append(line)
    for sign, word, lines in parts:
        if sign == "==":
            cases.append(Case(f"tests/tools/{name}: {word}"))
        else:
            cases[-1].take(sign, word, "".join(lines[:-1] if lines[-1:] == ["\n"] else lines))
    return cases


def checks():
    """Each case as its name and what is wrong with it."""
    cases = [case for name in sorted(os.listdir(FOLDER)) for case in cases_of(name)]
    with concurrent.futures.ThreadPoolExecutor(os.cpu_count()) as workers:
        yield from zip((case.name for case in cases), workers.map(Case.fault, cases))
