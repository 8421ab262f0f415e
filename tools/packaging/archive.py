"""Makes an archive of the built program with all that its guide uses, to be used where there is no Rattle kit.

Call: archive.py FOLDER [--program FILE]

  --program FILE  the built program; crates/flowcheck/out/flowcheck of this repository without it

Writes FOLDER/flowcheck-VERSION-x86_64-linux.tar.gz and its .sha256, as sha256sum -c takes it, and prints the name. The
archive has what install.py installs, with a README and the file COMMIT. All that is not the program is that of the
commit that is checked out, so nothing may be changed and not committed. Files stand in the order of their names, with
one owner and the time of the commit: of one commit and one program, one Python makes the same bytes each time. The
status is 3 where something is not there, changed and not committed, or cannot be written."""
import argparse
import datetime
import gzip
import hashlib
import io
import os
import re
import struct
import subprocess
import sys
import tarfile
import tempfile

HERE = os.path.dirname(os.path.abspath(__file__))
sys.path[:0] = [os.path.join(os.path.dirname(HERE), name) for name in ("packaging", "explain", "model")]

from contents import TOP
from install import BUILT, PROGRAM, install, needed, put, read
from tool import Unusable, finish

MACHINE = "x86_64-linux"
X86_64 = 62
PT_INTERP = 3
STATIC = "The program is linked statically and wants no library."
DYNAMIC = "The program wants {library}."


def git(*words):
    """What git says of this repository."""
    try:
        done = subprocess.run(["git", "-C", TOP, *words], capture_output=True, text=True, check=False)
    except OSError as fault:
        raise Unusable("git is not there: the archive is that of a commit") from fault
    if done.returncode:
        raise Unusable(f"git {words[0]}: {done.stderr.strip()}")
    return done.stdout.strip()


def commit():
    """The commit that is checked out, and its time in seconds; all must be committed."""
    changed = git("status", "--porcelain")
    if changed:
        raise Unusable(f"changed and not committed:\n{changed}")
    name, seconds = git("log", "-1", "--format=%H %ct").split()
    return name, int(seconds)


def wanted_library(program):
    """Which libraries an executable wants, in a sentence; it must be one for x86-64."""
    content = read(program)
    if content[:5] != b"\x7fELF\x02" or struct.unpack_from("<H", content, 18)[0] != X86_64:
        raise Unusable(f"{program} is no ELF file for x86-64")
    start, size, count = (struct.unpack_from(form, content, at)[0] for form, at in (("<Q", 32), ("<H", 54), ("<H", 56)))
    kinds = [struct.unpack_from("<I", content, start + size * index)[0] for index in range(count)]
    if PT_INTERP not in kinds:
        return STATIC
    versions = {tuple(map(int, found.split(b"."))) for found in re.findall(rb"\0GLIBC_([\d.]+)(?=\0)", content)}
    newest = ".".join(map(str, max(versions))) if versions else None
    library = f"the GNU C library, {newest} or later" if newest else "the C library of its dynamic linker"
    return DYNAMIC.format(library=library)


def readme(version, library):
    """The README of an archive."""
    text = read(os.path.join(HERE, "archive.md")).decode()
    return text.replace("@VERSION@", version[0].upper() + version[1:]).replace("@LIBRARY@", library).encode()


def packed(folder, name, seconds):
    """The bytes of the archive of a folder, under a name."""
    paths = [name] + sorted(os.path.relpath(os.path.join(place, entry), folder)
                            for place, folders, files in os.walk(os.path.join(folder, name))
                            for entry in (*folders, *files))
    plain = io.BytesIO()
    with tarfile.open(fileobj=plain, mode="w", format=tarfile.USTAR_FORMAT) as archive:
        for path in paths:
            entry = archive.gettarinfo(os.path.join(folder, path), path)
            entry.uid, entry.gid, entry.uname, entry.gname, entry.mtime = 0, 0, "root", "root", seconds
            entry.mode = 0o755 if entry.isdir() or entry.mode & 0o100 else 0o644
            if entry.isdir():
                archive.addfile(entry)
            else:
                with open(os.path.join(folder, path), "rb") as file:
                    archive.addfile(entry, file)
    return gzip.compress(plain.getvalue(), mtime=seconds)


def make(folder, program):
    """Makes the archive in a folder; its path."""
    identity, seconds = commit()
    library = wanted_library(needed(program))
    when = datetime.datetime.fromtimestamp(seconds, datetime.timezone.utc)
    with tempfile.TemporaryDirectory(prefix="archive-") as scratch:
        tree = os.path.join(scratch, "tree")
        version = install(tree, program, f"{when:%Y-%m-%d}").version
        put(os.path.join(tree, "README.md"), readme(version, library))
        told = f"commit {identity}\nof {when:%Y-%m-%d %H:%M:%S} UTC\nprogram sha256 "
        put(os.path.join(tree, "COMMIT"), f"{told}{hashlib.sha256(read(os.path.join(tree, PROGRAM))).hexdigest()}\n"
            .encode())
        name = f"{version.replace(' ', '-')}-{MACHINE}"
        os.rename(tree, os.path.join(scratch, name))
        content = packed(scratch, name, seconds)
    path = os.path.join(folder, f"{name}.tar.gz")
    put(path, content)
    put(f"{path}.sha256", f"{hashlib.sha256(content).hexdigest()}  {name}.tar.gz\n".encode())
    return path


def main():
    """Makes the archive."""
    parser = argparse.ArgumentParser(description=__doc__, formatter_class=argparse.RawDescriptionHelpFormatter)
    parser.add_argument("folder", metavar="FOLDER")
    parser.add_argument("--program", metavar="FILE", default=BUILT)
    words = parser.parse_args()
    print(make(os.path.abspath(words.folder), words.program))
    return 0


if __name__ == "__main__":
    finish(main)
