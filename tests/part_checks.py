"""The parts of a stream: what docs/PARTS.md shows, the rows and examples whose queries split, random logs, and what no file of a
case can hold: pipes that are read while they are written, a reader that goes away, a full device, blocks of the most bytes.

`python3 tests/part_checks.py` runs these with the program that the environment variable RSP names, or the one that was built.
"""
import functools
import os
import random
import re
import subprocess
import sys
import tempfile

sys.dont_write_bytecode = True
TOP = os.path.dirname(os.path.dirname(os.path.realpath(__file__)))
sys.path.insert(0, f"{TOP}/tests")
import documents  # noqa: E402
import model  # noqa: E402
import parted_logs  # noqa: E402
import query_model  # noqa: E402
from beside.splitting import Rule  # noqa: E402
from documents import SECONDS  # noqa: E402
from parted_logs import fault_of_parts, logs_of_parts, put_together  # noqa: E402

PAGE = "docs/PARTS.md"
RANDOM_LOGS = 40


def runs(program, words=(b"events",)):
    """A run of the program on a log: its output and its status."""
    def run(log):
        ran = subprocess.run([program, *words], input=log, stdout=subprocess.PIPE, timeout=SECONDS, env={})
        return ran.stdout, ran.returncode
    return run


# ---- the examples of the page


def as_by_a_source(part):
    """The log of a part as a source of its own writes it: it is told the time by ticks, and its labels are its own."""
    labels = {}
    part = re.sub(rb"(?m)^@item \S+ (\d+)\n\n*@end\n", lambda found: b"@tick %d\n" % (int(found[1]) - 1), part)
    return re.sub(rb"_:\w+", lambda found: labels.setdefault(found[0], b"_:r%d" % (len(labels) + 1)), part)


def examples_of_page():
    """Each example: its place, its log, the output of the whole, and the one of the parts."""
    logs, log, outputs = documents.Logs(), "", []
    for block in documents.blocks(PAGE):
        if documents.OUTPUT.match(block.text) or block.text.startswith("merge: "):
            outputs.append(block.text)
        elif block.text.startswith(("@", "REGISTER", "SELECT", "WHERE")):
            logs.take(block)
            log, outputs = logs.last, []
        if len(outputs) == 2:
            yield block.place, log, outputs
            outputs = []


def faults_of_page(program):
    run = runs(program)
    for place, log, (whole, wanted) in examples_of_page():
        parts = [as_by_a_source(part) for part in logs_of_parts(log.encode(), 2)]
        given = run(log.encode())[0].decode(), put_together([run(part)[0] for part in parts]).decode()
        yield place, None if given == (whole, wanted) and whole != wanted else f"it gives {given}"


def fault_of_new_parts():
    """The rule looks at each part of a select that there is: where the grammar gets more, as ORDER BY, it has to be looked at."""
    text = "REGISTER RSTREAM <q:o> AS SELECT ?s FROM NAMED WINDOW <w:1> ON <s:a> [RANGE PT1S] WHERE { WINDOW <w:1> { ?s ?p ?o } }"
    known = {"distinct", "star", "items", "body", "keys", "having", "aggregates", "grouped"}
    new = set(query_model.parse(text)["select"]) - known
    return f"the rule knows nothing of {sorted(new)}" if new else None


# ---- rows and examples

# longer texts, and logs with more of them, are left out: the model is slow
MOST_TEXT, MOST_TEXTS = 1000, 10


@functools.lru_cache(maxsize=None)
def splits(text):
    """Whether a text splits by some variable; None where it has a fault, which all parts tell alike."""
    try:
        query = model.good_query(text)
    except model.Refused:
        return None
    names = dict.fromkeys(variable[2] for variable in query["variables"] if variable[0] == "name")
    return any(not Rule(query, text.decode(), name).obstacles() for name in names)


def is_split(row):
    """Whether each query of a row splits, of which there is one at least."""
    if not (row.gives_tables() or row.gives_json()):
        return False
    texts = re.findall(rb"(?m)^@register .*\n((?:(?!@end).*\n)*)@end$", row.input)[:MOST_TEXTS + 1]
    found = [len(text) < MOST_TEXT and model.is_utf8(text) and splits(text) for text in texts]
    return True in found and False not in found and len(texts) <= MOST_TEXTS


def faults_of_rows(program, rows):
    for row in filter(is_split, rows):
        yield f"{row.name}, in parts", fault_of_parts(row.input, 3, runs(program, row.words))


def faults_of_random_logs(program):
    dice, writer = random.Random(1), parted_logs.writer_of_logs()
    for number in range(RANDOM_LOGS):
        log, slack, count = parted_logs.random_log(dice, writer)
        words = [b"events", *[b"--json"] * (number % 2), *([b"--slack", b"%d" % slack] if slack else [])]
        yield f"a random log in parts, {number}", fault_of_parts(log, count, runs(program, words))


# ---- the tools as processes


def log_of(items):
    """A query that splits, and so many items of two triples, a millisecond apart."""
    query = "REGISTER RSTREAM <q:o> REPORT CLOSE TICK TIME AS SELECT ?s ?t FROM NAMED WINDOW <w:1> ON <s:a> [RANGE PT0.1S]"
    front = f"@register q\n{query} WHERE {{ WINDOW <w:1> {{ ?s <p:v> ?t }} }}\n@end\n"
    lines = (f'@item <s:a> {at}\n<a:{at % 7}> <p:v> "{at}" .\n<a:{at % 5}> <p:v> "x" .\n@end\n' for at in range(1, items + 1))
    return f"{front}{''.join(lines)}@tick {items + 100}\n".encode()


def ran(command, folder, given=b""):
    return subprocess.run(["bash", "-c", command], cwd=folder, input=given, capture_output=True, timeout=SECONDS)


def by_pipes(program, folder):
    """All at once, by named pipes: what comes out is the output of the whole."""
    log = log_of(2000)
    command = (
        f"exec 3<&0; mkdir in out; mkfifo in/0 in/1 in/2 out/0 out/1 out/2; "
        f"for i in 0 1 2; do {program} events < in/$i > out/$i & done; "
        f"{TOP}/tools/part 3 --to in <&3 & {TOP}/tools/merge out/0 out/1 out/2; wait"
    )
    given, (wanted, _) = ran(command, folder, log), runs(program)(log)
    is_good = (given.stdout, given.stderr) == (wanted, b"")
    return None if is_good else f"it gave {given.stdout[:200]} and said {given.stderr[:200]}"


def fault_of_complaint(given, status, said):
    return None if (given.returncode, given.stderr.decode()) == (status, said) else f"status {given.returncode}: {given.stderr}"


def to_a_reader_that_goes_away(folder):
    given = ran(f"exec 3<&0; mkfifo 1; head -n 1 1 > /dev/null & {TOP}/tools/part 2 --to . <&3", folder, log_of(5000))
    return fault_of_complaint(given, 3, "part: ./1: Broken pipe\n")


def to_a_full_device(folder):
    given = ran(f"ln -s /dev/full 1; {TOP}/tools/part 2 --to .", folder, log_of(1))
    return fault_of_complaint(given, 3, "part: ./1: No space left on device\n")


def merged_to(folder, where):
    with open(f"{folder}/o", "wb") as file:
        file.write(b"# report q 5 0\n?s\n" * 10_000)
    return ran(f"{TOP}/tools/merge o o {where}; exit ${{PIPESTATUS[0]}}", folder)


def to_a_closed_pipe(folder):
    return fault_of_complaint(merged_to(folder, "| head -n 1"), 1, "")


def merged_to_a_full_device(folder):
    return fault_of_complaint(merged_to(folder, "> /dev/full"), 3, "merge: No space left on device\n")


def fault_of_words(folder):
    """Words that are none, each with a status of 2."""
    wrong = ["", "2", "0 --to .", "257 --to .", "x --to .", "2 3 --to .", "2 --to", "2 --to . --slack x", "2 --to . --slack -1"]
    given = [words for words in wrong if ran(f"{TOP}/tools/part {words}", folder).returncode != 2]
    return f"these are taken: {given}" if given else None


OF_FOLDERS = {
    "parts to a reader that goes away": to_a_reader_that_goes_away, "parts to a full device": to_a_full_device,
    "wrong words of `part`": fault_of_words,
    "a merge to a closed pipe": to_a_closed_pipe, "a merge to a full device": merged_to_a_full_device,
}


# ---- large blocks

MOST = model.MOST_BYTES


def large_blocks():
    """Blocks of the most bytes and of more, and lines that come in pieces, each behind a query and before a tick that is late."""
    item, good = b"@item <s:a> 1\n<a:1> <p:v> <a:2> .\n", b"@item <s:a> 2\n<a:3> <p:v> <a:4> .\n@end\n"
    end, late = b"\n@end\n", b"@tick 101\n@tick 1\n"
    for name, size in [("of the most bytes", MOST), ("of a byte too many", MOST + 1), ("of 20 MB", 20_000_000)]:
        yield f"an item {name}", item + b"#" * (size - len(item + end)) + end + good + late
    yield "20 MB of blanks behind an end", item + b"@end".ljust(20_000_000) + b"\n" + good + late
    yield "a comment of 20 MB", b"#" * 20_000_000 + b"\n" + good + late
    yield "a log that ends within an item of 20 MB", good + late + item + b"#" * 20_000_000
    yield "a log that ends behind a directive", good + late + b"@item <s:a> 500"


def query_alone():
    return log_of(0).split(b"@tick")[0]


def checks(program, rows):
    """Each check as its name and what it found wrong."""
    yield from faults_of_page(program)
    yield "the rule looks at each part of a select", fault_of_new_parts()
    yield from faults_of_rows(program, rows)
    yield from faults_of_random_logs(program)
    for name, log in large_blocks():
        yield f"{name}, in parts", fault_of_parts(query_alone() + log, 2, runs(program))
    with tempfile.TemporaryDirectory(prefix="rsp-parts-") as folder:
        yield "parts by named pipes", by_pipes(program, folder)
    for name, check in OF_FOLDERS.items():
        with tempfile.TemporaryDirectory(prefix="rsp-parts-") as folder:
            yield name, check(folder)


def main():
    program = os.path.abspath(os.environ.get("RSP") or f"{TOP}/crates/rsp_main/out/rsp_main")
    faults = [(name, wrong) for name, wrong in checks(program, []) if wrong is not None]
    for name, wrong in faults:
        print(f"{name}: {wrong[:1000]}")
    print(f"{len(faults)} failed")
    return int(bool(faults))


if __name__ == "__main__":
    sys.exit(main())
