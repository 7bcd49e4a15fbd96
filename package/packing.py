"""What is packed: the files of an archive or a package, by their paths in it, and the gate's note, which has to name the program."""
import hashlib
import os
import re
import stat
import subprocess
import sys
from dataclasses import dataclass
from pathlib import Path

TOP = Path(__file__).resolve().parent.parent
VERSION = (TOP / "VERSION").read_text().strip()
SONAME = f"libcobix.so.{VERSION.split('.')[0]}"
REAL = f"libcobix.so.{VERSION}"
GATE = TOP / "out" / "gate"
PROGRAM = TOP / "crates" / "cobix" / "out" / "cobix"
PROVED = TOP / "crates" / "cobix_inside" / "out" / "libcobix_inside.a"
# No symbols for debugging, in which the path of this checkout would stand.
CFLAGS = "-O3 -std=c11 -fPIC -Wall -Wextra"


@dataclass
class Entry:
    """A file of a package: its bytes and whether it is a program, or what it is a link to."""

    data: bytes = b""
    runs: bool = False
    link: str = ""


def stop(why):
    sys.exit(f"package: {why}")


def sum_of(data):
    return hashlib.sha256(data).hexdigest()


def said(*words):
    return subprocess.run(words, cwd=TOP, capture_output=True, text=True, check=True).stdout.strip()


def time_of_sources():
    """The time that all files of a package have: SOURCE_DATE_EPOCH, else that of the commit, so that the same sources give the same bytes."""
    try:
        return int(os.environ.get("SOURCE_DATE_EPOCH") or said("git", "log", "-1", "--format=%ct"))
    except (OSError, ValueError, subprocess.CalledProcessError):
        stop("SOURCE_DATE_EPOCH has to give a time where there is no commit")


def gate_of(note, *files):
    """The gate's note, where it is of a gate that passed and names these files as they are. Else nothing is packed."""
    if not note.is_file():
        stop(f"there is no {note}: make test writes it, where everything passes")
    text = note.read_text()
    if not re.search(r"^\d+ passed, 0 failed$", text, re.M) or not re.search(r" logic [0-9a-f]{16}$", text, re.M):
        stop(f"{note} is not the note of a gate that passed")
    for file in files:
        if not file.is_file():
            stop(f"there is no {file}: make test builds it")
        if not re.search(rf"^{sum_of(file.read_bytes())}  (.*/)?{re.escape(file.name)}$", text, re.M):
            stop(f"{file} is not the {file.name} that the gate passed ({note})")
    return text.encode()


def version_told(program, gate):
    """Refuses a program that tells another version or logic, or a module for Python. The program tells two numbers where the third is 0."""
    told = subprocess.run([program, "--version"], stdin=subprocess.DEVNULL, capture_output=True, text=True).stdout
    if not re.match(rf"cobix ({re.escape(VERSION)}|{re.escape(VERSION.removesuffix('.0'))}) ", told):
        stop(f"{program} tells the version {told.strip()}, and VERSION says {VERSION}")
    if re.findall(r"logic ([0-9a-f]{16})", told) != re.findall(r"^\S+ logic ([0-9a-f]{16})$", gate.decode(), re.M):
        stop(f"{program} tells another logic than the gate: {told.strip()}")
    if f'__version__ = "{VERSION}"\n' not in (TOP / "library" / "python" / "cobix" / "__init__.py").read_text():
        stop(f"the module for Python tells another version than {VERSION}")


def read(path):
    """A file of this checkout."""
    path = Path(path)
    return Entry(path.read_bytes(), bool(path.stat().st_mode & stat.S_IXUSR))


def library_built(proved, place):
    """Builds the library of the proved part, below a new folder: the folder that has it."""
    words = ["make", "-s", "-C", TOP / "library", f"OUT={place}", f"ARCHIVE={proved.resolve()}", f"CFLAGS={CFLAGS}"]
    if subprocess.run(words, env={**os.environ, "LC_ALL": "C", "ZERO_AR_DATE": "1"}).returncode:
        stop("the library was not built")
    for name, words in {SONAME: ["--strip-unneeded"], "libcobix.a": ["--strip-debug", "-D"], "engine-alone.o": ["--strip-debug"]}.items():
        subprocess.run(["strip", *words, f"{place}/{name}"], check=True)
    return Path(place)


def shared_library(built, folder):
    """The library, and the names by which it is found when a program starts and when one is linked."""
    yield f"{folder}/{REAL}", Entry((built / SONAME).read_bytes())
    yield f"{folder}/{SONAME}", Entry(link=REAL)
    yield f"{folder}/libcobix.so", Entry(link=SONAME)
    yield f"{folder}/libcobix.a", Entry((built / "libcobix.a").read_bytes())


def pkg_config(prefix, libraries):
    """What pkg-config is told."""
    text = (TOP / "library" / "cobix.pc.in").read_text().replace("@PREFIX@", prefix).replace("@VERSION@", VERSION)
    return Entry(text.replace("libdir=${prefix}/lib\n", f"libdir={libraries}\n").encode())


def pages():
    """The pages that a user reads, by their paths here, so that their links hold."""
    found = [*TOP.glob("*.md"), *TOP.glob("LICENSE-*"), *TOP.glob("docs/*.md"), TOP / "gnucobol" / "README.md"]
    found += [it for it in [*TOP.glob("examples/*"), *TOP.glob("examples/programs/*")] if it.is_file()]
    for path in sorted(found):
        yield str(path.relative_to(TOP)), read(path)


def handler_sources():
    """The handler for GnuCOBOL: C that is compiled where it is used, since what it shares with libcob goes by the version of GnuCOBOL."""
    for path in sorted([*TOP.glob("gnucobol/*.c"), *TOP.glob("gnucobol/*.h"), TOP / "gnucobol" / "Makefile"]):
        yield f"gnucobol/{path.name}", read(path)
    yield "library/engine.h", read(TOP / "library" / "engine.h")


def handler_engine(built):
    """The library as the handler links it."""
    yield "library/out/engine-alone.o", Entry((built / "engine-alone.o").read_bytes())


def sums(entries):
    """A line for each file, as `sha256sum --check` reads it."""
    return "".join(f"{sum_of(it.data)}  {path}\n" for path, it in sorted(entries.items()) if not it.link).encode()


def written(path, data):
    """A file that is packed, and its checksum beside it."""
    path.write_bytes(data)
    path.with_name(f"{path.name}.sha256").write_text(f"{sum_of(data)}  {path.name}\n")


def arguments(usage):
    """The words of a command line: where to put what is made, the note, the program and the proved library."""
    words, given = sys.argv[1:], [TOP / "out" / "dist", GATE, PROGRAM, PROVED]
    if len(words) not in (0, len(given)):
        sys.exit(usage)
    return [Path(it).absolute() for it in words or given]
