"""`tools/package`: what it makes of a program that stands as proved, put into a root of its own and run there; and what it refuses."""
import contextlib
import hashlib
import os
import shutil
import subprocess
import tempfile

from documents import SECONDS, TOP, read
from outcomes import Skipped

# what of the sources a package is made from, without the crates
OF_TOP = ("docs", "examples", "tools", "README.md", "CHANGELOG.md", "crates.txt")
MADE = "crates/rsp_main/out/rsp_main"
# the systemd of the machine has no man page of a package that isn't installed
NO_PAGES = "--man=no"


class Room:
    """A repository of one commit, in which the program stands with the marks of a proved build."""

    def __init__(self, folder, program):
        self.folder, self.top = folder, f"{folder}/top"
        for name in OF_TOP:
            take = shutil.copytree if os.path.isdir(f"{TOP}/{name}") else shutil.copy
            os.makedirs(self.top, exist_ok=True)
            take(f"{TOP}/{name}", f"{self.top}/{name}")
        self.write("crates/rsp_main/src/main.rt", b"")
        self.write(".gitignore", b"out/\n__pycache__/\n")
        self.git("init", "-q")
        self.git("add", "-A")
        self.git("-c", "user.name=t", "-c", "user.email=t@t", "commit", "-q", "-m", "all")
        self.write(MADE, read(program))
        os.chmod(f"{self.top}/{MADE}", 0o755)
        made = hashlib.sha256(read(program)).hexdigest().encode()
        self.write(f"{MADE}.stamp", b"0" * 64 + made)
        self.write(f"{MADE}.kit", made + b" a kit of tests logic 0\n")

    def write(self, path, content):
        os.makedirs(os.path.dirname(f"{self.top}/{path}"), exist_ok=True)
        with open(f"{self.top}/{path}", "wb") as file:
            file.write(content)

    def git(self, *words):
        subprocess.run(["git", *words], cwd=self.top, stdout=subprocess.PIPE, stderr=subprocess.PIPE, check=True)

    def package(self, *words, **how):
        return subprocess.run([f"{self.top}/tools/package", *words], cwd=self.folder, capture_output=True, timeout=SECONDS, **how)

    @contextlib.contextmanager
    def changed(self, path, content):
        """A file is another one, for a while, with the time that it had."""
        whole = f"{self.top}/{path}"
        before, times = read(whole), (os.stat(whole).st_atime_ns, os.stat(whole).st_mtime_ns)
        self.write(path, content)
        os.utime(whole, ns=times)
        yield
        self.write(path, before)
        os.utime(whole, ns=times)


def said(*words, **how):
    """The status of a command, and all that it says."""
    ran = subprocess.run(words, stdout=subprocess.PIPE, stderr=subprocess.STDOUT, timeout=SECONDS, **how)
    return ran.returncode, ran.stdout.decode(errors="replace")


def unlike(got, wanted):
    return None if got == wanted else f"it is {got}, and {wanted} is wanted"


def refused(ran, status, why):
    good = ran.returncode == status and not ran.stdout and ran.stderr.decode().startswith(why) and ran.stderr.count(b"\n") == 1
    return None if good else f"status {ran.returncode}, and it said {ran.stderr[:300]}"


def refusals(room):
    """What isn't packed, each as its name and what is wrong with it."""
    yield "no folder", refused(room.package(), 2, "usage: tools/package DIR")
    yield "an option", refused(room.package("-d"), 2, "usage: tools/package DIR")
    with room.changed(f"{MADE}.stamp", b"0" * 128):
        yield "a program that isn't proved", refused(room.package("out"), 3, "package: the program has no mark of a build by ./rsp")
    with room.changed(f"{MADE}.kit", b"0 a kit"):
        yield "a program of no kit", refused(room.package("out"), 3, "package: the program has no mark of a build by ./rsp")
    with room.changed("docs/GUIDE.md", b"another guide\n"):
        yield "a page that isn't the commit's", refused(room.package("out"), 3, "package: the sources aren't those of the commit ")
    with room.changed("docs/REPORTS.md", b"no tables\n"):
        room.git("-c", "user.name=t", "-c", "user.email=t@t", "commit", "-q", "-a", "-m", "no tables")
        yield "a page without tables", refused(room.package("out"), 3, "package: REPORTS.md has no")
    room.git("reset", "-q", "--hard", "HEAD~1")
    source = f"{room.top}/crates/rsp_main/src/main.rt"
    later = os.stat(f"{room.top}/{MADE}").st_mtime + 1
    os.utime(source, (later, later))
    yield "a program that is older than a source", refused(room.package("out"), 3, "package: a source is newer than the program")
    os.utime(source, (0, 0))
    os.rename(f"{room.top}/{MADE}", f"{room.folder}/program")
    yield "no program", refused(room.package("out"), 3, "package: there is no program")
    os.rename(f"{room.folder}/program", f"{room.top}/{MADE}")
    yield "a folder that can't be made", refused(room.package("/proc/self/none"), 3, "package: ")


def archives(room):
    """Both archives, made twice, the second time with other permissions by default."""
    first, second = room.package("out"), room.package("out2", preexec_fn=lambda: os.umask(0o077))
    yield "a package", unlike((first.returncode, first.stderr, second.returncode), (0, b"", 0))
    names = sorted(os.listdir(f"{room.folder}/out"))
    yield "what a package has", unlike([name.rpartition(".")[2] for name in names], ["SHA256SUMS", "gz", "deb"])
    for name in names:
        alike = read(f"{room.folder}/out/{name}") == read(f"{room.folder}/out2/{name}")
        yield f"made twice: {name.rpartition('.')[2]}", None if alike else "it isn't the same"
    yield "its sums", unlike(said("sha256sum", "--quiet", "-c", "SHA256SUMS", cwd=f"{room.folder}/out"), (0, ""))


def installed(room):
    """The package of Debian in a root of its own: what it runs, and the pages."""
    root = f"{room.folder}/root"
    os.makedirs(f"{root}/var/lib/dpkg/info")
    os.makedirs(f"{root}/var/lib/dpkg/updates")
    open(f"{root}/var/lib/dpkg/status", "w").close()
    package = next(name for name in os.listdir(f"{room.folder}/out") if name.endswith(".deb"))
    status, text = said("dpkg", f"--root={root}", "--force-not-root", "--force-depends", "-i", f"{room.folder}/out/{package}")
    yield "an installation", None if status == 0 else text
    example = f"{root}/usr/share/doc/rsp/examples/first"
    with open(f"{example}/log", "rb") as log:
        yield "an example of it", unlike(said(f"{root}/usr/bin/rsp", "events", stdin=log), (0, read(f"{example}/stdout").decode()))
    yield "its own sums", unlike(said("sha256sum", "--quiet", "-c", "share/doc/rsp/BUILD", cwd=f"{root}/usr")[0], 0)
    yield "its recipe", unlike(gone_on(root), read(f"{example}/stdout"))
    manual, unit = f"{root}/usr/share/man/man1/rsp.1.gz", f"{root}/usr/lib/systemd/system/rsp@.service"
    warned = said("sh", "-c", 'man --warnings -l "$1" 2>&1 > /dev/null', "man", manual, env={**os.environ, "LC_ALL": "C.UTF-8"})
    yield "its manual", unlike(warned, (0, "")) if shutil.which("man") else Skipped("man")
    yield "its unit", unlike(said("systemd-analyze", NO_PAGES, "verify", unit), (0, "")) if shutil.which("systemd-analyze") else Skipped(
        "systemd-analyze")


def gone_on(root):
    """What the unit's pipe writes of a log that comes through a named pipe in two parts, and in two runs."""
    folder = f"{root}/log"
    os.makedirs(folder)
    os.mkfifo(f"{folder}/pipe")
    lines = read(f"{root}/usr/share/doc/rsp/examples/first/log").splitlines(True)
    script = f'exec {root}/usr/lib/rsp/examples/recipes/again/script kept reports < "$1" >> reports'
    for part in (lines[:6], lines[6:]):
        run = subprocess.Popen(["bash", "-c", script, "bash", f"{folder}/pipe"], cwd=folder, stderr=subprocess.DEVNULL)
        with open(f"{folder}/pipe", "wb") as pipe:
            pipe.writelines(part)
        run.wait(timeout=SECONDS)
    return read(f"{folder}/reports")


def checks(program):
    """Each check as its name and what it found wrong."""
    lacking = next((tool for tool in ("dpkg-deb", "dpkg", "git", "sha256sum") if not shutil.which(tool)), None)
    if lacking:
        yield "a package", Skipped(lacking)
        return
    with tempfile.TemporaryDirectory(prefix="rsp-packages-") as folder:
        room = Room(folder, program)
        for name, wrong in [*refusals(room), *archives(room), *installed(room)]:
            yield f"tools/package: {name}", wrong
