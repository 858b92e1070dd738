"""`tools/package`: a proved program that is current in, and a `.tar.gz` and a package of Debian out, the same bytes each time.

    tools/package DIR
"""
import gzip
import hashlib
import io
import os
import re
import shutil
import subprocess
import sys
import tarfile
import tempfile
from typing import Dict, List

from ..building.sources import bytes_of
from ..calls import NOTHING
from ..inputs import Unreadable
from ..words import WrongWords, named
from .standing import Standing, standing
from .tree import OWN, File, tree

USAGE = "usage: tools/package DIR"


def packing(top: str, words: List[str]) -> int:
    """Makes both archives and their sums in the folder, and says what was made."""
    if len(words) != 1:
        raise WrongWords
    folder = named(words[0])
    if shutil.which("dpkg-deb") is None:
        raise Unreadable("there is no dpkg-deb on the path")
    stands = standing(top)
    files = tree(top, stands)
    os.makedirs(folder, exist_ok=True)
    names = [f"rsp-{stands.version}-x86_64.tar.gz", f"rsp_{stands.version}_amd64.deb"]
    write_tar(f"{folder}/{names[0]}", files, stands)
    write_debian(f"{folder}/{names[1]}", files, stands)
    sums = "".join(f"{hashlib.sha256(bytes_of(f'{folder}/{name}')).hexdigest()}  {name}\n" for name in names)
    with open(f"{folder}/SHA256SUMS", "w", encoding="utf-8") as file:
        file.write(sums)
    sys.stdout.write(sums)
    return NOTHING


def write_tar(path: str, files: Dict[str, File], stands: Standing) -> None:
    """One folder with all files; its members have one order, one time and one owner."""
    with open(path, "wb") as raw, gzip.GzipFile("", "wb", 9, raw, mtime=0) as packed:
        with tarfile.open(fileobj=packed, mode="w", format=tarfile.PAX_FORMAT) as archive:
            for name, file in sorted(files.items()):
                member = tarfile.TarInfo(f"rsp-{stands.version}/{name}")
                member.mode, member.mtime, member.size = file.mode, stands.time, len(file.content)
                if file.link:
                    member.type, member.linkname = tarfile.SYMTYPE, file.link
                archive.addfile(member, io.BytesIO(file.content))


def write_debian(path: str, files: Dict[str, File], stands: Standing) -> None:
    with tempfile.TemporaryDirectory(prefix="rsp-package-") as room:
        for name, file in {**{f"usr/{name}": file for name, file in files.items()}, "DEBIAN/control": control(files, stands)}.items():
            put(f"{room}/{name}", file)
        make_alike(room, stands.time)
        ran = subprocess.run(
            ["dpkg-deb", "--root-owner-group", "-Zgzip", "-z9", "--build", room, os.path.abspath(path)],
            env={**os.environ, "SOURCE_DATE_EPOCH": str(stands.time)}, stdout=subprocess.PIPE, stderr=subprocess.STDOUT, check=False)
    if ran.returncode:
        raise Unreadable(f"dpkg-deb made no package: {ran.stdout.decode(errors='replace').strip()}")


def put(path: str, file: File) -> None:
    os.makedirs(os.path.dirname(path), exist_ok=True)
    if file.link:
        os.symlink(file.link, path)
        return
    with open(path, "wb") as target:
        target.write(file.content)
    os.chmod(path, file.mode)


def make_alike(folder: str, time: int) -> None:
    """Gives all folders one mode, and all that is below the folder one time."""
    for at, folders, names in os.walk(folder, topdown=False):
        os.chmod(at, 0o755)
        for name in [*folders, *names]:
            os.utime(f"{at}/{name}", (time, time), follow_symlinks=False)
    os.utime(folder, (time, time))


def control(files: Dict[str, File], stands: Standing) -> File:
    size = sum(len(file.content) for file in files.values()) // 1024 + 1
    return File(f"""Package: rsp
Version: {stands.version}
Architecture: amd64
Maintainer: whoever built this package <root@localhost>
Installed-Size: {size}
Depends: libc6 (>= {least_libc(files[f"{OWN}/rsp"].content)}), bash
Recommends: python3
Section: utils
Priority: optional
Description: asks SPARQL queries of streams of RDF graphs
 It reports exactly the rows that a query means, at exactly the instants it asks
 for. It is proved to do so; /usr/share/doc/rsp/README.md says what that means.
 .
 Commit {stands.commit}.
 Proved with {stands.kit}.
""".encode())


def least_libc(program: bytes) -> str:
    """The newest version of the C library whose names the program asks for."""
    found = {tuple(map(int, it)) for it in re.findall(rb"GLIBC_(\d+)\.(\d+)", program)}
    return ".".join(map(str, max(found, default=(2, 17))))
