"""What the tools say of all that is there: each refused row, the mistakes of QUERIES, the examples, the commands of GUIDE.

`python3 tests/tool_checks.py` runs these and the cases of tests/tools. Nothing here needs the program: its outputs stand in the
rows.
"""
import contextlib
import io
import os
import re
import subprocess
import sys
import tempfile

sys.dont_write_bytecode = True
TOP = os.path.dirname(os.path.dirname(os.path.realpath(__file__)))
sys.path.insert(0, f"{TOP}/tools")
import documents  # noqa: E402
import model  # noqa: E402
import outcomes  # noqa: E402
import query_model  # noqa: E402
import tool_cases  # noqa: E402
from beside import counted, explaining, limits, marks, mistakes, of_texts, pages, refusals, texts, words  # noqa: E402
from documents import read  # noqa: E402

EXPECTED = f"{TOP}/tests/tools.expected"


@contextlib.contextmanager
def within(folder):
    before = os.getcwd()
    os.chdir(folder)
    try:
        yield
    finally:
        os.chdir(before)


# ---- rows


def refused_rows():
    """Each row whose output has a refusal, with the words of `explain` for it, and the folder of its files."""
    for name in sorted(os.listdir(f"{TOP}/tests/rows")):
        row = f"{TOP}/tests/rows/{name}"
        if re.search(rb"(?m)^# refused ", read(f"{row}/stdout")):
            said = read(f"{row}/words").decode().split("\n")[:-1]
            folder = f"{row}/files" if os.path.isdir(f"{row}/files") else row
            yield name, [*(word for word in said if word != "--"), *([f"{row}/stdin"] if said[0] == "events" else [])], folder


def fault_of_row(said, folder, output):
    """Whether each refusal has a finding, at the byte that its details say."""
    with within(folder):
        asked = words.parsed(said, has_log=True)
        found = list(explaining.each_explained(asked, io.BytesIO(output)))
        entries = [entry for entry in refusals.written(io.BytesIO(output)) if not isinstance(entry, refusals.Overfull)]
        if any(finding.kind == "3 BadDirective" and finding.said == marks.SAID for finding in told_of(found)):
            # what is refused for a mark before its directive isn't told
            entries = entries[:len(found)]
        if len(found) != len(entries):
            return f"{len(entries)} refusals have {len(found)} findings"
        differing = [one for one in found if isinstance(one, Exception)]
        if differing:
            return differing[0].finding.said
        groups = list(model.groups(model.lines_of(io.BytesIO(read(asked.log))))) if asked.log else None
        pairs = zip(entries, found)
        return next(filter(None, (fault_of_place(entry, finding, asked, groups) for entry, finding in pairs)), None)


def told_of(found):
    return [one for one in found if not isinstance(one, Exception)]


def fault_of_place(entry, finding, asked, groups):
    """A place is in a file that is named, or in the block; `at` counts the bytes of the text, `column` those of a line."""
    details = refusals.details_of(entry.text)
    file, line, column = finding.place
    if isinstance(entry, refusals.OfLine):
        is_good = (file, line, column) == (entry.file, entry.line, details.get("column", 1))
    elif groups is None:
        is_good = "at" not in details or offset(read(file).split(b"\n"), line, column) == details["at"]
    else:
        group = groups[entry.block - 1]
        body = [there.text for there in group[1:]]
        is_good = group[0].number <= line <= group[-1].number + 1
        is_good = is_good and ("at" not in details or offset(body, line - group[0].number, column) == details["at"])
    return None if is_good else f"{entry} has the place {finding.place}"


def offset(lines, line, column):
    return sum(len(there) + 1 for there in lines[:line - 1]) + column - 1


# ---- words


def faults_of_words():
    """The tools take the words of the program, and no others: those that a row wants the usage for are wrong."""
    for name in sorted(os.listdir(f"{TOP}/tests/rows")):
        row = f"{TOP}/tests/rows/{name}"
        said = os.fsdecode(read(f"{row}/words")).split("\n")[:-1]
        is_wrong = os.path.exists(f"{row}/status") and int(read(f"{row}/status")) == 2
        if said[:1] == ["gen"]:
            continue
        try:
            words.parsed(said)
            given = False
        except words.WrongWords:
            given = True
        if given != is_wrong:
            yield name


# ---- what the model can't read in time


def fault_of_slow_text():
    """A text that the model hasn't read in time gets its place alone."""
    text, wait = b"REGISTER RSTREAM <q:o> AS SELECT ?x " + b"SELECT " * 1000, limits.MOST_WAIT
    limits.MOST_WAIT = 0
    try:
        with tempfile.NamedTemporaryFile(prefix="rsp-tool-") as file:
            file.write(text)
            file.flush()
            output = io.BytesIO(b"# refused query 8 Syntax at=36\n")
            (found,) = explaining.explained(words.parsed(["check", file.name]), output)
    finally:
        limits.MOST_WAIT = wait
    return None if (found.place.column, found.said) == (37, of_texts.UNREAD) else f"it says {found}"


# ---- limits

# longer texts are left to the cases
MOST_READ = 1000


def fault_of_long_text():
    """A text of a byte too many is told at that byte, and one of the most bytes isn't."""
    query = b"ASK".ljust(query_model.MOST_TEXT)
    found = [texts.looked(content) for content in (query, query + b" ")]
    given = [(its.why, its.at) for its in found]
    wanted = [("9 LeftOut at=0 what=ASK", 0), ("10 Limit what=text", query_model.MOST_TEXT)]
    return None if given == wanted else f"it says {given}"


def queries_of_rows():
    """The texts of queries in the logs and files of the rows, each once, as far as they are read soon."""
    found = set()
    for name in sorted(os.listdir(f"{TOP}/tests/rows")):
        row = f"{TOP}/tests/rows/{name}"
        if os.path.exists(f"{row}/stdin"):
            found.update(re.findall(rb"(?m)^@register .*\n((?:(?!@end).*\n)*)@end$", read(f"{row}/stdin")))
        if os.path.isfile(f"{row}/files/q.rq"):
            found.add(read(f"{row}/files/q.rq"))
    return sorted(text.decode() for text in found if len(text) <= MOST_READ and model.is_utf8(text))


def faults_of_counts():
    """What has a limit has as many places as the model counts of it."""
    for text in queries_of_rows():
        try:
            tree, numbers, select = query_model.numbered_tree(text, query_model.tokens_of(text))
        except query_model.Refused:
            continue
        for name, count, _ in query_model.counts(tree, numbers, select):
            places = counted.counted(name, tree, numbers)
            if sum(how_many for _, how_many in places) != count:
                yield f"{name} of {text[:200]}: {count}, and {places}"


# ---- the mistakes of QUERIES


def fault_of_mistake(mistake):
    """What the tool says of a text with the mistake, given the refusal that the table has."""
    with tempfile.TemporaryDirectory(prefix="rsp-tool-") as room:
        name = f"{room}/q.rq"
        with open(name, "w", encoding="utf-8") as file:
            file.write(mistake.text)
        output = f"# refused query {pages.spans(mistake.line)[0]}\n".encode()
        (found,) = explaining.explained(words.parsed(["check", name]), io.BytesIO(output))
    if isinstance(found, Exception):
        return found.finding.said
    # of several ways one may be told, and of several names which
    _, _, write = found.write.partition("write instead: ")
    return None if write and (write.startswith(mistake.write) or mistake.write.startswith(write)) else f"it says {found.write}"


# ---- the examples and GUIDE: each finding stands in a list, with a reason


def calls():
    """Each example and each command of GUIDE that runs the program: a name, and the command with `tools/lint` in its place."""
    for name in documents.examples():
        folder = f"examples/{name}"
        said = " ".join(read(f"{TOP}/{folder}/words").decode().split())
        given = " < log" if os.path.exists(f"{TOP}/{folder}/log") else ""
        yield folder, f"cd {folder} && ../../tools/lint {said}{given}"
    for block in documents.blocks("docs/GUIDE.md"):
        if documents.COMMAND.match(block.text) and re.search(r"(^|[ /])rsp (events|run|check)", block.text):
            command = re.sub(r"(\.\./\.\./|\./)rsp ", r"\1tools/lint ", block.text.strip())
            yield block.text.strip(), re.sub(r"(tools/lint [^|)]*)\|[^)]*", r"\1", command)


def findings_of(command):
    ran = subprocess.run(["bash", "-c", command], cwd=TOP, capture_output=True, timeout=documents.SECONDS)
    return [line.split(": ")[1] for line in ran.stdout.decode().splitlines()] + ([ran.stderr.decode()] if ran.stderr else [])


def expected():
    """The list: a name, and behind it the findings that are wanted, each with a reason behind a colon."""
    wanted = {}
    for line in read(EXPECTED).decode().splitlines():
        if line.startswith("    "):
            wanted[name].append(line.strip().split(":")[0])
        elif line and not line.startswith("#"):
            name, wanted[line] = line, []
    return wanted


def checks_of_calls():
    wanted, found, examples = expected(), {}, documents.examples()
    for name, command in calls():
        found[name] = findings_of(command)
        good = found[name] == wanted.get(name, [])
        yield f"lint of {name}", None if good else f"it finds {found[name]}"
    left = [name for name in wanted if name not in found]
    yield "each line of the list of findings is of a command", f"{left} is none" if left else None
    many = [name for name in examples if found[f"examples/{name}"]]
    yield "at most one in five examples has a finding", f"{many}" if 5 * len(many) > len(examples) else None


# ---- pages


def checks_of_pages():
    """Each name of a finding has its section, and each refusal its sentence."""
    headings = [pages.anchor(line.lstrip("# ")) for line in pages.lines_of(pages.TOOLS) if line.startswith("#")]
    names = "unbound having inexact unfed unread unlooked unstored unseen unlike merged restless gap unclosed seconds late"
    names += " explain plan look-out split part merge where-model-and-program-differ"
    for name in names.split():
        yield f"docs/TOOLS.md has a section {name}", None if name in headings else "there is none"
    for kind in refusals.DETAILS:
        yield f"REPORTS has a sentence of {kind}", None if pages.paragraph(kind)[1] != pages.UNKNOWN else "there is none"


def checks():
    """Each check as its name and what it found wrong."""
    yield from tool_cases.checks()
    for name, said, folder in refused_rows():
        yield f"explain of tests/rows/{name}", fault_of_row(said, folder, read(f"{TOP}/tests/rows/{name}/stdout"))
    wrong = list(faults_of_words())
    yield "the tools take the words of the program", f"not so in {wrong}" if wrong else None
    yield "a text that the model hasn't read in time", fault_of_slow_text()
    yield "a text of a byte too many, and one of the most bytes", fault_of_long_text()
    yield "what has a limit has as many places as there are", next(faults_of_counts(), None)
    for mistake in mistakes.mistakes():
        yield f"explain of the mistake {mistake.mistake}", fault_of_mistake(mistake)
    yield from checks_of_calls()
    yield from checks_of_pages()


if __name__ == "__main__":
    sys.exit(outcomes.told(checks()))
