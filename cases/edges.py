"""What surrounds a run: streams that are closed or full, two runs over one folder, files and folders that may not be written, devices that are full, and a large file.

`faults(program)` gives a Trial for each, with what is wrong with it, if anything. Each is performed in a folder of its own.
Only a trial that tells what the machine lacks for it is skipped: any other error is a fault.
"""
import fcntl
import os
import random
import re
import resource
import shutil
import signal
import subprocess
import sys
import tempfile
import termios
import time
from dataclasses import dataclass
from pathlib import Path

SECONDS = 120  # the most that a run may take
NOBODY = 65534
PIPE = 4096  # the bytes that a pipe holds before its writer waits
ROUNDS = 100


@dataclass
class Trial:
    """A trial by name, and what the machine lacks for it, if anything."""

    name: str
    needs: str = ""


class Wrong(Exception):
    """What is wrong with a trial."""


class Lacking(Exception):
    """What the machine lacks for a trial."""


def wants(found, wanted, what):
    if found != wanted:
        raise Wrong(f"{what}: {found!r:.300} and not {wanted!r:.300}")


# ---- decks


DESCRIPTION = """ENVIRONMENT DIVISION.
INPUT-OUTPUT SECTION.
FILE-CONTROL.
    SELECT CUST ASSIGN TO "cust.dat" ORGANIZATION IS INDEXED
        ACCESS MODE IS DYNAMIC RECORD KEY IS CUST-ID.
    SELECT TWIN ASSIGN TO "twin.dat" ORGANIZATION IS INDEXED
        ACCESS MODE IS DYNAMIC RECORD KEY IS TWIN-ID.
DATA DIVISION.
FILE SECTION.
FD CUST.
01 CUST-REC.
    05 CUST-ID PIC 9(6).
    05 CUST-TEXT PIC X(994).
FD TWIN.
01 TWIN-REC.
    05 TWIN-ID PIC 9(6).
    05 TWIN-TEXT PIC X(994).
PROCEDURE DIVISION.
MAIN-LINE.
"""


def deck(*statements):
    return (DESCRIPTION + "".join(f"    {it}.\n" for it in statements) + "    STOP RUN.\n").encode()


def added(*numbers):
    """The statements that add records of these numbers."""
    return [it for n in numbers for it in (f"MOVE {n} TO CUST-ID", "WRITE CUST-REC")]


def record(number, text=""):
    return f"{number:06}{text:994}"


def delivered(verb, *numbers):
    return [f"{verb} CUST 00 [{record(it)}]" for it in numbers]


FILES = {"CUST": "cust.dat", "TWIN": "twin.dat"}


def wants_causes(told, lines):
    """Standard error has a line for each file by which a line of the transcript ends in 30: its name in the folder, a cause, and the number of the first such line."""
    first = {}
    for number, line in enumerate(lines, 1):
        words = line.split()
        if words[-1] == "30":
            first.setdefault(words[-2], number)
    wanted = [rf"cobix: {FILES[it]}: .+ \(line {first[it]} of the transcript\)" for it in FILES if it in first]
    found = told.decode().splitlines()
    met = len(found) == len(wanted) and all(re.fullmatch(*it) for it in zip(wanted, found))
    wants((met, told), (True, told), f"whether standard error tells {wanted}")


READS = ["READ CUST NEXT"] * 5  # more bytes of transcript than a pipe holds
NEW = deck("OPEN OUTPUT CUST", *added(1, 2, 3, 4, 5), "CLOSE CUST")
LOOK = deck("OPEN INPUT CUST", "READ CUST NEXT", "CLOSE CUST")
LOOKED = ["OPEN INPUT CUST 00", *delivered("READ NEXT", 1), "CLOSE CUST 00"]


# ---- a folder with files, and runs over them


class Room:
    """A folder of a trial, with the program over the files in it."""

    def __init__(self, program, place):
        self.program, self.place, self.decks = program, Path(place), 0
        self.files = self.place / "files"
        self.files.mkdir()
        self.cust = self.files / "cust.dat"
        self.told = ""  # by the last run, on standard error

    def words(self, text, options=()):
        """The command line of a run of a deck."""
        self.decks += 1
        path = self.place / f"deck-{self.decks}"
        path.write_bytes(text)
        return [self.program, "run", path, "--folder", self.files, *options]

    def call(self, words, **how):
        return subprocess.run(words, **{"stdin": subprocess.DEVNULL, "capture_output": True, "timeout": SECONDS, **how})

    def run(self, text, **how):
        """The lines of the transcript of a run that ends as it should."""
        ended = self.call(self.words(text), **how)
        wants(ended.returncode, 0, "exit status")
        lines = ended.stdout.decode().splitlines()
        wants_causes(ended.stderr, lines)
        self.told = ended.stderr.decode()
        return lines

    def made(self):
        """A file of five records, and its bytes."""
        self.run(NEW)
        return self.cust.read_bytes()

    def check(self, path=None):
        return self.call([self.program, "check", path or self.cust])

    def wants_sound(self, records):
        wants(self.check().stdout.decode().split(" pages")[0], f"sound records {records}", "cobix check")

    def wants_refused(self):
        wants(self.run(LOOK)[0], "OPEN INPUT CUST 91", "the next run")


class Held:
    """A run that waits for somebody to read its transcript."""

    def __init__(self, words):
        self.end, writer = os.pipe()
        fcntl.fcntl(writer, fcntl.F_SETPIPE_SZ, PIPE)
        self.process = subprocess.Popen(words, stdin=subprocess.DEVNULL, stdout=writer, stderr=subprocess.DEVNULL)
        os.close(writer)
        self.waits()

    def waits(self):
        """Returns once the pipe takes no further line."""
        until = time.monotonic() + SECONDS
        before, same = -1, 0
        while same < 10:
            if time.monotonic() > until or self.process.poll() is not None:
                raise Wrong("the run did not wait for its transcript to be read")
            time.sleep(0.02)
            size = int.from_bytes(fcntl.ioctl(self.end, termios.FIONREAD, b"\0" * 4), sys.byteorder)
            same = same + 1 if size == before and size > 0 else 0
            before = size

    def lines(self):
        """Reads the transcript to its end, and answers its lines."""
        with os.fdopen(self.end, "rb") as it:
            text = it.read()
        wants(self.process.wait(SECONDS), 0, "exit status of the run that was held")
        return text.decode().splitlines()


# ---- streams


def streams_closed(*numbers):
    def close():
        for it in numbers:
            os.close(it)

    return close


def closed_streams(room, numbers):
    """A run that reads, one that makes its file, and a check, with these streams closed."""
    before = room.made()
    (room.files / "twin.dat").unlink(missing_ok=True)
    make = deck("OPEN OUTPUT TWIN", "MOVE 1 TO TWIN-ID", "WRITE TWIN-REC", "CLOSE TWIN")
    made = ["OPEN OUTPUT TWIN 00", "WRITE TWIN 00", "CLOSE TWIN 00"]
    for words, lines in [(room.words(LOOK), LOOKED), (room.words(make), made), ([room.program, "check", room.cust], None)]:
        ended = room.call(words, stdin=None, preexec_fn=streams_closed(*numbers))
        if 1 in numbers:
            told = b"" if 2 in numbers else b"cobix: output\n"
            wants((ended.returncode, ended.stderr), (4, told), "exit status and standard error")
            wants(sorted(it.name for it in room.files.iterdir()), ["cust.dat"], "files of the folder")
        else:
            wants((ended.returncode, ended.stderr), (0, b""), "exit status and standard error")
            found = ended.stdout.decode()
            wants(found.splitlines() if lines else found.split(" pages")[0], lines or "sound records 5", "standard output")
        wants(room.cust.read_bytes(), before, "bytes of the file")
    if 1 not in numbers:
        wants((room.files / "twin.dat").exists(), True, "the file was made")


def full_output(room):
    """A transcript that cannot be written ends the run behind its first verb, and the file that it was making is refused."""
    with open("/dev/full", "wb") as full:
        ended = room.call(room.words(NEW), capture_output=False, stdout=full, stderr=subprocess.PIPE)
    told = b"cobix: output\n  standard output: no space left on device\n"
    wants((ended.returncode, ended.stderr), (4, told), "exit status and standard error")
    room.wants_refused()


def pipe_ends_early(room):
    """A pipe whose reader is gone ends a run that reads; its file stays as it was."""
    before = room.made()
    end, writer = os.pipe()
    os.close(end)
    ended = room.call(room.words(LOOK), capture_output=False, stdout=writer, stderr=subprocess.PIPE)
    os.close(writer)
    told = b"cobix: output\n  standard output: broken pipe\n"
    wants((ended.returncode, ended.stderr), (4, told), "exit status and standard error")
    wants(room.cust.read_bytes(), before, "bytes of the file")


# ---- two runs over one folder


def change_beside_change(room):
    """A file that one run has changed is closed to a second run until the first ends."""
    room.made()
    first = Held(room.words(deck("OPEN I-O CUST", *added(11), *READS, "CLOSE CUST")))
    second = room.run(deck("OPEN I-O CUST", *added(12), "OPEN OUTPUT CUST"))
    wants(second, ["OPEN I-O CUST 30", "WRITE CUST 48", "OPEN OUTPUT CUST 30"], "the second run")
    wants(room.told, "cobix: cust.dat: another run has it (line 1 of the transcript)\n", "the cause")
    check = room.check()
    told = f"cobix: input\n  {room.cust}: another run has it\n"
    wants((check.returncode, check.stderr.decode()), (4, told), "exit status and standard error of a check meanwhile")
    wants(first.lines(), ["OPEN I-O CUST 00", "WRITE CUST 00", *delivered("READ NEXT", 1, 2, 3, 4, 5), "CLOSE CUST 00"], "the first run")
    room.wants_sound(6)


def change_beside_read(room, opening, changes, told):
    """While one run reads a file, another may open it; its first change is refused, and nothing is changed."""
    before = room.made()
    first = Held(room.words(deck("OPEN INPUT CUST", *READS, "CLOSE CUST")))
    wants(room.run(deck(opening, *changes)), told, "the second run")
    wants(room.cust.read_bytes(), before, "bytes of the file")
    wants(first.lines(), ["OPEN INPUT CUST 00", *delivered("READ NEXT", 1, 2, 3, 4, 5), "CLOSE CUST 00"], "the first run")
    wants(room.run(deck("OPEN I-O CUST", *added(12), "CLOSE CUST")), ["OPEN I-O CUST 00", "WRITE CUST 00", "CLOSE CUST 00"], "a later run")
    room.wants_sound(6)


def two_that_read(room):
    """Runs that only read go side by side, and beside a check."""
    room.made()
    first = Held(room.words(deck("OPEN I-O CUST", *READS, *added(11), "CLOSE CUST")))
    wants(room.run(LOOK), LOOKED, "the second run")
    room.wants_sound(5)
    wants(first.lines(), ["OPEN I-O CUST 00", *delivered("READ NEXT", 1, 2, 3, 4, 5), "WRITE CUST 00", "CLOSE CUST 00"], "the first run")
    room.wants_sound(6)


def read_beside_making(room):
    """A file that one run is making cannot be opened by another until the first ends."""
    numbers = range(1, 401)
    first = Held(room.words(deck("OPEN OUTPUT CUST", *added(*numbers), "CLOSE CUST")))
    wants(room.run(LOOK)[0], "OPEN INPUT CUST 30", "the second run")
    wants(room.run(NEW)[0], "OPEN OUTPUT CUST 30", "a third run, which would make it")
    first.lines()
    room.wants_sound(len(numbers))


def two_names_of_one_file(room):
    """Two names of a deck that are one file by a link: the first change is refused."""
    before = room.made()
    os.link(room.cust, room.files / "twin.dat")
    told = room.run(deck("OPEN I-O CUST", "OPEN I-O TWIN", *added(11), "CLOSE CUST", "CLOSE TWIN"))
    wants(told, ["OPEN I-O CUST 00", "OPEN I-O TWIN 00", "WRITE CUST 30", "CLOSE CUST 30", "CLOSE TWIN 00"], "transcript")
    wants(room.cust.read_bytes(), before, "bytes of the file")


def runs_at_once(room):
    """Two runs that are started at once change one file: it is sound, and has the records of each CLOSE that answered 00."""
    room.made()
    records = 5
    chosen = random.Random(1)
    for round in range(ROUNDS):
        numbers = [100 + 10 * round, 105 + 10 * round]
        started = []
        for n in numbers:
            words = room.words(deck("OPEN I-O CUST", "READ CUST NEXT", *added(n, n + 1), "CLOSE CUST"))
            started.append(subprocess.Popen(words, stdin=subprocess.DEVNULL, stdout=subprocess.PIPE, stderr=subprocess.DEVNULL))
            time.sleep(chosen.choice([0, 0, 0.001, 0.003]))
        told = [it.communicate(timeout=SECONDS)[0].decode().splitlines() for it in started]
        for n, lines in zip(numbers, told):
            statuses = [line.split("CUST ")[1][:2] for line in lines]
            if statuses[-1] == "00":
                wants(statuses, ["00"] * 5, "a run that closed the file")
                records += 2
                found = room.run(deck("OPEN INPUT CUST", f"MOVE {n + 1} TO CUST-ID", "READ CUST"))
                wants(found[1:], delivered("READ", n + 1) + ["CLOSE CUST 00"], "the record of a run that closed the file")
            elif statuses[0] == "30":
                wants(statuses, ["30", "47", "48", "48", "42"], "a run that did not open the file")
            else:
                wants(statuses, ["00", "00", "30", "92", "30"], "a run that did not change the file")
        room.wants_sound(records)
    if records < 5 + 2 * ROUNDS // 2:
        raise Wrong(f"of {2 * ROUNDS} runs only {(records - 5) // 2} changed the file")


# ---- files and folders that may not be written


def as_nobody():
    os.setgroups([])
    os.setgid(NOBODY)
    os.setuid(NOBODY)


def unprivileged():
    """How a run is started that has no leave beyond that of its files."""
    if os.geteuid() != 0:
        return {}
    try:
        subprocess.run(["true"], preexec_fn=as_nobody, check=True)
    except subprocess.SubprocessError:
        raise Lacking("leave to run as another user") from None
    return {"preexec_fn": as_nobody}


def opened_to_all(room):
    """Lets another user reach the folder, and a copy of the program in it."""
    room.program = shutil.copy(room.program, room.place / "cobix")
    for it in (room.place, room.files, Path(room.program)):
        it.chmod(0o755)


def file_only_read(room):
    """A file that may only be read: INPUT works, the first change of any other mode answers 30, and nothing is changed."""
    before = room.made()
    room.cust.chmod(0o444)
    opened_to_all(room)
    how = unprivileged()
    look = deck("OPEN INPUT CUST", "READ CUST NEXT", "MOVE 3 TO CUST-ID", "START CUST KEY IS EQUAL TO CUST-ID", "READ CUST NEXT", "CLOSE CUST")
    lines = ["OPEN INPUT CUST 00", *delivered("READ NEXT", 1), "START CUST 00", *delivered("READ NEXT", 3), "CLOSE CUST 00"]
    wants(room.run(look, **how), lines, "INPUT")
    for opening, change, verb in [
        ("OPEN I-O CUST", "WRITE CUST-REC", "WRITE"),
        ("OPEN I-O CUST", "REWRITE CUST-REC", "REWRITE"),
        ("OPEN I-O CUST", "DELETE CUST", "DELETE"),
    ]:
        number = 11 if verb == "WRITE" else 2
        told = room.run(deck(opening, "READ CUST NEXT", f"MOVE {number} TO CUST-ID", change, "CLOSE CUST", "OPEN INPUT CUST", "READ CUST NEXT"), **how)
        wants(told, [f"{opening} 00", *delivered("READ NEXT", 1), f"{verb} CUST 30", "CLOSE CUST 30", *LOOKED], verb)
    wants(room.run(deck("OPEN OUTPUT CUST"), **how), ["OPEN OUTPUT CUST 30"], "OUTPUT")
    wants(room.cust.read_bytes(), before, "bytes of the file")


def extended_file_only_read(room):
    before = room.made()
    room.cust.chmod(0o444)
    opened_to_all(room)
    text = deck("OPEN EXTEND CUST", *added(11), "CLOSE CUST").replace(b"ACCESS MODE IS DYNAMIC", b"ACCESS MODE IS SEQUENTIAL")
    wants(room.run(text, **unprivileged()), ["OPEN EXTEND CUST 00", "WRITE CUST 30", "CLOSE CUST 30"], "EXTEND")
    wants(room.cust.read_bytes(), before, "bytes of the file")


def folder_only_read(room):
    """A folder in which no file may be made: OPEN OUTPUT answers 30, and nothing is there."""
    opened_to_all(room)
    room.files.chmod(0o555)
    lines = room.run(deck("OPEN OUTPUT CUST", *added(1)), **unprivileged())
    wants(lines, ["OPEN OUTPUT CUST 30", "WRITE CUST 48"], "transcript")
    wants(room.told, "cobix: cust.dat: permission denied (line 1 of the transcript)\n", "the cause")
    wants(list(room.files.iterdir()), [], "files of the folder")


# ---- devices that are full


MANY = deck("OPEN OUTPUT CUST", *added(*range(1, 401)), "CLOSE CUST")


def wants_full(room, lines, **how):
    """From the first bad line on a run tells 30, 92 and 30, and the next run refuses the file; where room is made, OPEN OUTPUT makes it anew."""
    bad = next(i for i, it in enumerate(lines) if not it.endswith(" 00"))
    left = len(lines) - bad
    wants(lines[bad:], ["WRITE CUST 30", *["WRITE CUST 92"] * (left - 2), "CLOSE CUST 30"] if left > 1 else ["CLOSE CUST 30"], "the lines from the first bad one on")
    wants(room.run(LOOK, **how)[0], "OPEN INPUT CUST 91", "the next run")


def limit_on_file_size(room):
    """A limit of the system on the size of a file, met in the middle."""

    def limited():
        resource.setrlimit(resource.RLIMIT_FSIZE, (200_000, 200_000))

    wants_full(room, room.run(MANY, preexec_fn=limited, restore_signals=False))
    room.made()
    room.wants_sound(5)


def disk_that_is_full(room):
    """A disk of 256 kibibytes."""
    mounted = subprocess.run(["mount", "-t", "tmpfs", "-o", "size=256k", "tmpfs", room.files], capture_output=True)
    if mounted.returncode:
        raise Lacking("leave to mount a small disk")
    try:
        wants_full(room, room.run(MANY))
        room.cust.unlink()
        room.made()
        room.wants_sound(5)
    finally:
        subprocess.run(["umount", room.files], check=True)


# ---- a load that is killed


KEYED = deck()
KEYED = KEYED.replace(b"RECORD KEY IS CUST-ID.", b"RECORD KEY IS CUST-ID\n        ALTERNATE RECORD KEY IS CUST-KIND WITH DUPLICATES.")
KEYED = KEYED.replace(b"05 CUST-TEXT PIC X(994).", b"05 CUST-KIND PIC X(4).\n    05 CUST-TEXT PIC X(990).")


def killed_load(room):
    """A load into a new file is killed, by the limit on the size of a file: its first page is lost, and by the lengths of its deck the records come back that had reached the file."""
    keyed, text, left, new = (room.place / it for it in ("keyed.deck", "text", "left", "new"))
    keyed.write_bytes(KEYED)
    records = [f"[{record(it)}]" for it in range(1, 401)]
    text.write_text("".join(f"{it}\n" for it in records))
    beside = ["--deck", keyed, "--file", "CUST"]

    def limited():
        resource.setrlimit(resource.RLIMIT_FSIZE, (50 * 4096, 50 * 4096))

    ended = room.call([room.program, "load", keyed, "--folder", room.files, "--file", "CUST", "--frames", "1", text], preexec_fn=limited)
    wants((ended.returncode, ended.stdout), (-signal.SIGXFSZ, b""), "the load")
    room.wants_refused()
    before = room.cust.read_bytes()
    alone = room.call([room.program, "salvage", room.cust])
    wants((alone.returncode, alone.stdout, alone.stderr), (1, b"", b"unsound 3\n"), "a salvage without a deck")
    salvaged = room.call([room.program, "salvage", room.cust, *beside])
    lines = salvaged.stdout.decode().splitlines()
    wants((salvaged.returncode, salvaged.stderr), (1, f"salvaged {len(lines)} records, in doubt\n".encode()), "a salvage beside the deck")
    wants((len(lines) > 100, len(set(lines)), set(lines) - set(records)), (True, len(lines), set()), "how many lines come back, how many of them differ, and those that were not loaded")
    wants(room.cust.read_bytes(), before, "bytes of the file")
    left.write_bytes(salvaged.stdout)
    new.mkdir()
    loaded = room.call([room.program, "load", keyed, "--folder", new, "--file", "CUST", left])
    wants((loaded.returncode, loaded.stdout), (0, f"loaded {len(lines)}\n".encode()), "a load of what came back")
    whole = room.call([room.program, "salvage", new / "cust.dat", *beside])
    told = f"salvaged {len(lines)} records, all of them\n".encode()
    wants((whole.returncode, whole.stdout.decode().splitlines(), whole.stderr), (0, sorted(lines), told), "a salvage of the new file")


# ---- a large file


LARGE = 1100  # records, each of which takes a page


def large_file(room):
    """A file of more than a thousand pages is made, opened and changed. No contract says that there is memory for it at OPEN."""

    def large(*statements):
        return deck(*statements).replace(b"CUST-TEXT PIC X(994)", b"CUST-TEXT PIC X(3994)")

    lines = room.run(large("OPEN OUTPUT CUST", *added(*range(1, LARGE + 1)), "CLOSE CUST"))
    wants(lines, ["OPEN OUTPUT CUST 00", *["WRITE CUST 00"] * LARGE, "CLOSE CUST 00"], "the deck that makes it")
    wants(int(room.check().stdout.split()[-1]) > 1000, True, "whether it has more than a thousand pages")
    verbs = ["READ CUST", "REWRITE CUST-REC", "DELETE CUST", "WRITE CUST-REC", "READ CUST"]
    lines = room.run(large("OPEN I-O CUST", f"MOVE {LARGE} TO CUST-ID", *verbs, "CLOSE CUST"))
    told = ["OPEN I-O CUST 00", *[f"{it.removesuffix('-REC')} 00" for it in verbs], "CLOSE CUST 00"]
    wants([it.split(" [")[0] for it in lines], told, "the deck that changes it")
    room.wants_sound(LARGE)


# ---- all of them


def trials():
    for chosen in range(8):
        numbers = [n for n in range(3) if chosen >> n & 1]
        names = ", ".join(("standard input", "standard output", "standard error")[n] for n in numbers) or "none"
        yield f"streams closed: {names}", lambda room, numbers=numbers: closed_streams(room, numbers)
    yield "a transcript on a full device", full_output
    yield "a pipe that nobody reads any more", pipe_ends_early
    yield "a change beside a change", change_beside_change
    changes = [
        ("OPEN I-O CUST", [*added(11), "CLOSE CUST"], ["OPEN I-O CUST 00", "WRITE CUST 30", "CLOSE CUST 30"]),
        ("OPEN I-O CUST", ["MOVE 2 TO CUST-ID", "REWRITE CUST-REC"], ["OPEN I-O CUST 00", "REWRITE CUST 30", "CLOSE CUST 30"]),
        ("OPEN I-O CUST", ["MOVE 2 TO CUST-ID", "DELETE CUST"], ["OPEN I-O CUST 00", "DELETE CUST 30", "CLOSE CUST 30"]),
        ("OPEN OUTPUT CUST", added(11), ["OPEN OUTPUT CUST 30", "WRITE CUST 48"]),
    ]
    for opening, statements, told in changes:
        verb = (told[0] if told[0].endswith("30") else told[1])[:-8]
        yield f"{verb} beside a run that reads", lambda room, it=(opening, statements, told): change_beside_read(room, *it)
    yield "two runs that read", two_that_read
    yield "a run that reads beside one that makes the file", read_beside_making
    yield "two names of one file", two_names_of_one_file
    yield f"{ROUNDS} rounds of two runs started at once", runs_at_once
    yield "a file that may only be read", file_only_read
    yield "a file that may only be read, extended", extended_file_only_read
    yield "a folder that may only be read", folder_only_read
    yield "a limit on the size of files", limit_on_file_size
    yield "a disk that is full", disk_that_is_full
    yield "a load into a new file that is killed", killed_load
    yield "a file of more than a thousand pages", large_file


def faults(program, trials=trials):
    for name, perform in trials():
        with tempfile.TemporaryDirectory() as place:
            try:
                perform(Room(program, place))
                yield Trial(name), ""
            except Wrong as wrong:
                yield Trial(name), str(wrong)
            except Lacking as lacking:
                yield Trial(name, str(lacking)), ""
            except Exception as error:
                yield Trial(name), f"{type(error).__name__}: {error}"
