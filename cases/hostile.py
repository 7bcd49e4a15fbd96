"""Surroundings that are against a run: calls of the system that fail, frames with damage, runs that race, streams that are closed.

`trials(program)` gives each by its name, as those of edges.py. Calls are failed by a library in front of the C library, fail-calls.c, which needs a C compiler.
What must hold: the program ends by itself, with 0, 1 or 4. Where CLOSE answered 00, the file is sound and has each record whose WRITE answered 00.
A run is halted at a lock by another such library, halt-locks.c.
"""
import errno
import fcntl
import functools
import os
import random
import re
import select
import shutil
import subprocess
import sys
import tempfile
import time
from concurrent.futures import ThreadPoolExecutor
from pathlib import Path

from edges import LOOK, LOOKED, NEW, PIPE, SECONDS, Lacking, Wrong, added, deck, record, streams_closed, wants
from sessions import CLOSE, DELETE, I_O, INPUT, OPEN, OUTPUT, READ, READ_NEXT, REWRITE, START, describes, performs, releases, writes

HERE = Path(__file__).resolve().parent
WORKERS = 2  # runs side by side
SESSIONS = 2000
ROUNDS = 50
FEW = 5  # interrupted calls in a row that change nothing
EACH = -1  # in place of a call's number: before each call
STORM = 3000  # interrupted calls in a row after which a device has failed


# ---- calls that fail


@functools.cache
def preloaded(name):
    """The library that a source is made, and the place where it stays."""
    place = tempfile.TemporaryDirectory()
    made = Path(place.name) / f"{name}.so"
    for compiler in filter(shutil.which, ["cc", "gcc", "clang"]):
        words = [compiler, "-O1", "-shared", "-fPIC", "-o", made, HERE / f"{name}.c", "-ldl"]
        if subprocess.run(words, capture_output=True).returncode == 0:
            return place, made
    raise Lacking(f"a C compiler that makes {name}.c a library")


def failing_calls():
    return preloaded("fail-calls")


class Calls:
    """Which calls fail: those of a group, from a number on, so many, and with which error."""

    def __init__(self, group="any", first=0, count=0, error=errno.EIO):
        self.group, self.first, self.count, self.error = group, first, count, error

    def __str__(self):
        return f"{self.group} call {self.first}, {self.count} of them, {errno.errorcode[self.error]}"

    def made(self, words, counted, **how):
        """Runs a command, and answers how it ended, how many calls there were, and how many of them failed."""
        surroundings = {
            **os.environ, "LD_PRELOAD": str(failing_calls()[1]), "FAIL_CALLS": self.group, "FAIL_FROM": str(self.first),
            "FAIL_COUNT": str(self.count), "FAIL_ERROR": str(self.error), "COUNTED": str(counted),
        }
        ended = subprocess.run(words, **{"stdin": subprocess.DEVNULL, "capture_output": True, "timeout": SECONDS, "env": surroundings, **how})
        size = counted.stat().st_size // 2
        data = counted.read_bytes()
        counted.unlink()
        return ended, *(int.from_bytes(data[it : it + size], sys.byteorder) for it in (0, size))


GROUPS = ["open", "read", "write", "pread", "pwrite", "sync", "lock", "stat"]
ENDS_BY_ITSELF = (0, 1, 4)


class Command:
    """A command over a folder that begins as another one, and what must hold of what it leaves."""

    def __init__(self, room, words, holds, stdin=b""):
        self.room, self.words, self.holds, self.stdin = room, words, holds, stdin
        self.first = room.place / "first"
        shutil.copytree(room.files, self.first)

    def ends(self, calls, name):
        """Runs the command over a new folder. Answers how it ended, the counts of its calls and the folder."""
        place = self.room.place / name
        shutil.copytree(self.first, place)
        words = [place if it is self.room.files else it(place) if callable(it) else it for it in self.words]
        # A file, and no pipe, from which a read takes what has come by then: so each run makes the same calls.
        given = place.with_suffix(".input")
        given.write_bytes(self.stdin)
        with given.open("rb") as stdin:
            ended, made, failed = calls.made(words, place.with_suffix(".count"), stdin=stdin)
        return ended, made, failed, place

    def fails(self, calls, name):
        """Runs it with failing calls, and looks at what is left. Answers how it ended, what is left, and how many calls failed."""
        ended, made, failed, place = self.ends(calls, name)
        left = {it.name: it.read_bytes() for it in place.iterdir()}
        try:
            wants(ended.returncode in ENDS_BY_ITSELF, True, f"whether the exit status is one of the program's: {ended.returncode}, {ended.stderr[:200]!r}")
            if ended.returncode == 4 and not (calls.group == "write" and calls.count < 0):
                wants(ended.stderr.split(b"\n")[0] in (b"cobix: input", b"cobix: output"), True, f"whether the fault is told: {ended.stderr!r}")
            self.holds(self.room, ended, place)
        except Wrong as wrong:
            raise Wrong(f"with {calls}: {wrong}") from None
        shutil.rmtree(place)
        return ended, left, failed


def each(room, tasks):
    """Performs tasks side by side, each with a name of its own, and answers what each gave."""
    with ThreadPoolExecutor(WORKERS) as pool:
        return list(pool.map(lambda it: it[1](f"task-{it[0]}"), enumerate(tasks)))


def failed_in_turn(room, command, groups):
    """Each call of each group fails, once, and then it and all after it. In each run some call has to fail, and each group has to have calls."""
    whole, _, _, place = command.ends(Calls(), "whole")
    command.holds(room, whole, place)
    wants(whole.returncode, 0, f"exit status where no call fails, {whole.stderr[:200]!r}")
    for group in groups:
        calls = command.ends(Calls(group), f"counted-{group}")[1]
        wants(calls > 0, True, f"whether there are calls of the group {group}")
        errors = [errno.EIO, errno.ENOSPC] if group in ("pwrite", "sync", "write") else [errno.EIO, errno.EMFILE] if group == "open" else [errno.EIO]
        kinds = [Calls(group, n, count, error) for n in range(1, calls + 1) for count, error in [(1, errors[0]), (-1, errors[-1])]]
        for calls_failed, (_, _, failed) in zip(kinds, each(room, [functools.partial(command.fails, it) for it in kinds])):
            wants(failed > 0, True, f"whether a call failed, with {calls_failed}")


def interrupted(room, command, groups):
    """Where each call of a group is interrupted a few times before it is made, nothing is changed by that. Where one is so very often, what must hold holds."""
    whole, _, _, place = command.ends(Calls(), "calm")
    left = {it.name: it.read_bytes() for it in place.iterdir()}
    for group in groups:
        calls = command.ends(Calls(group), f"calm-{group}")[1]
        wants(calls > 0, True, f"whether there are calls of the group {group}")
        ended, found, failed = command.fails(Calls(group, EACH, FEW, errno.EINTR), f"some-{group}")
        wants((ended.returncode, ended.stdout, ended.stderr), (whole.returncode, whole.stdout, whole.stderr), f"calls of {group} are interrupted: how it ended")
        wants((failed, found == left), (FEW * calls, True), f"calls of {group} are interrupted: how many failed, and whether the files are the same")
        for n in (1, calls // 2 + 1):
            failed = command.fails(Calls(group, n, STORM, errno.EINTR), f"storm-{group}-{n}")[2]
            wants(failed > FEW, True, f"whether many calls of {group} were interrupted: {failed}")


# ---- what must hold


def records_of(room, file):
    """The records of a file that is sound, which a list looks at first; None of one that is not: it was not closed, or is too short."""
    ended = room.call([room.program, "list", file])
    if ended.returncode == 0:
        return ended.stdout.decode().splitlines()
    wants((ended.returncode, bool(re.fullmatch(rb"unsound [12]", ended.stderr.split(b"\n")[0]))), (1, True), f"the list of {file.name}: {ended.stderr!r}")
    return None


def books(transcript):
    """By file, the last status of its CLOSE, if it came to one, and whether any of its verbs failed."""
    closed, failed = {}, set()
    for verb, name, status in re.findall(r"^([A-Z -]+) (\w+) (\d\d)(?: \[.*\])?$", transcript, re.M):
        if verb == "CLOSE":
            closed[name] = status
        if status in ("30", "90", "92"):
            failed.add(name)
    return closed, failed


BEFORE = [record(n) for n in (1, 2, 3, 4, 5)]
AFTER = [record(1), record(2, "NEW"), record(4), record(5), record(6), record(7)]
TWINS = [record(8), record(9)]
CHANGES = deck(
    "OPEN I-O CUST", *added(6), "MOVE 2 TO CUST-ID", "READ CUST", 'MOVE "NEW" TO CUST-TEXT', "REWRITE CUST-REC",
    "MOVE 3 TO CUST-ID", "DELETE CUST", "MOVE SPACES TO CUST-TEXT", *added(7), "CLOSE CUST",
    "OPEN OUTPUT TWIN", "MOVE 8 TO TWIN-ID", "WRITE TWIN-REC", "MOVE 9 TO TWIN-ID", "WRITE TWIN-REC", "CLOSE TWIN",
    "OPEN INPUT CUST", "READ CUST NEXT", "CLOSE CUST",
)


def listed(records):
    return [f"[{it}]" for it in records]


def run_holds(room, ended, place):
    """Where CLOSE answered 00 after verbs that all succeeded, the file has what was written. Else it is as before, as it was to be, or refused."""
    closed, failed = books(ended.stdout.decode())
    for name, file, before, after in [("CUST", "cust.dat", BEFORE, AFTER), ("TWIN", "twin.dat", [], TWINS)]:
        found = records_of(room, place / file) if (place / file).exists() else None
        if closed.get(name) == "00" and name not in failed:
            wants(found, listed(after), f"the records of {file}, whose CLOSE answered 00 and whose verbs succeeded")
        elif found is not None:
            wants(found in ([], listed(before), listed(after)), True, f"whether the records of {file} are those before or after, {found!r:.200}")


def command_of_a_run(room):
    room.made()
    return Command(room, [room.program, "run", _deck(room, CHANGES), "--folder", room.files, "--frames", "1"], run_holds)


def _deck(room, text):
    path = room.place / "the.deck"
    path.write_bytes(text)
    return path


TEXT = "".join(f"[{record(n)}]\n" for n in range(11, 31))


def load_holds(room, ended, place):
    """Where the load says that it is done, the file has the records of before and of the text. Else it has those of before, or some of the text too, or it is refused."""
    found = records_of(room, place / "cust.dat")
    before, after = listed(BEFORE), [*listed(BEFORE), *TEXT.splitlines()]
    if ended.returncode == 0:
        wants((ended.stdout, found == after), (b"loaded 20\n", True), "what is told, and whether the records are there")
    elif found is not None:
        wants(found == after[: len(found)] and len(found) >= len(before), True, f"whether the records are the first ones, {len(found)}")


def command_of_a_load(room):
    room.made()
    text = room.place / "text"
    text.write_text(TEXT)
    return Command(room, [room.program, "load", _deck(room, NEW), "--folder", room.files, "--file", "CUST", "--into", "--frames", "1", text], load_holds)


def copy_holds(room, ended, place):
    """Where the copy says that it is done, the new file has the records of the file; else it has them, or it is refused, or absent. The file is as it was."""
    wants(records_of(room, place / "cust.dat"), listed(BEFORE), "the records of the file")
    new = place / "twin.dat"
    found = records_of(room, new) if new.exists() else None
    if ended.returncode == 0:
        wants((ended.stdout, found), (b"", listed(BEFORE)), "what is written, and the records of the new file")
    elif found is not None:
        wants(found, listed(BEFORE), "the records of the new file, which is not refused")


def command_of_a_copy(room):
    room.made()
    return Command(room, [room.program, "copy", lambda place: place / "cust.dat", lambda place: place / "twin.dat", "--frames", "1"], copy_holds)


SENT = [
    describes(0, "cust.dat", 1000, 1000, [(0, 6, False)]), performs(0, OPEN, I_O), writes(0, record(6)), writes(0, record(7)),
    performs(0, READ, area="000001"), performs(0, CLOSE), releases(0),
    describes(1, "twin.dat", 1000, 1000, [(0, 6, False)]), performs(1, OPEN, OUTPUT), writes(1, record(8)), writes(1, record(9)), performs(1, CLOSE),
]


def frames_in(data):
    """The bodies of the whole frames that bytes begin with, and the rest."""
    bodies = []
    while len(data) >= 2 and len(data) >= 2 + int.from_bytes(data[:2], "big"):
        size = int.from_bytes(data[:2], "big")
        bodies, data = [*bodies, data[2 : 2 + size]], data[2 + size :]
    return bodies, data


def session_holds(room, ended, place):
    """Where a CLOSE answered 00, and each verb before it, the file has what was written. Answers are whole but for the last."""
    answers = frames_in(ended.stdout)[0]
    status = [it[1:3].decode() if it[:1] == b"\2" else "" for it in answers]
    for file, verbs, before, after in [("cust.dat", slice(1, 6), BEFORE, [*BEFORE, record(6), record(7)]), ("twin.dat", slice(8, 12), [], TWINS)]:
        found = records_of(room, place / file) if (place / file).exists() else None
        told = status[verbs]
        if len(told) == verbs.stop - verbs.start and set(told) == {"00"}:
            wants(found, listed(after), f"the records of {file}, each of whose verbs answered 00")
        elif found is not None:
            written = {*listed(before), *listed(after)}
            wants(set(listed(before) if before else []) <= set(found) <= written or found == [], True, f"whether the records of {file} are those of before and of the session")


def command_of_a_session(room):
    room.made()
    return Command(room, [room.program, "serve", "--folder", room.files, "--frames", "1"], session_holds, b"".join(SENT))


INTERRUPTIBLE = [it for it in GROUPS if it != "stat"]  # no system interrupts that call
COMMANDS = {"run": command_of_a_run, "load": command_of_a_load, "copy": command_of_a_copy, "serve": command_of_a_session}
LACKS = {"copy": ["read"]}  # no such call is made by the command


def each_call_fails(room, name):
    failing_calls()
    failed_in_turn(room, COMMANDS[name](room), [it for it in GROUPS if it not in LACKS.get(name, [])])


def calls_are_interrupted(room, name):
    failing_calls()
    interrupted(room, COMMANDS[name](room), [it for it in INTERRUPTIBLE if it not in LACKS.get(name, [])])


# ---- closes at the end of a session that fail

LEFT_OPEN = [it for it in SENT if it not in (performs(0, CLOSE), releases(0), performs(1, CLOSE))]
WRITTEN = {"cust.dat": [*BEFORE, record(6), record(7)], "twin.dat": TWINS}
LAST_SYNCS = {"cust.dat": (3, 2), "twin.dat": (1, 0)}  # of the closes at the end, from the last one: of the pages, then of the gate


def closes_fail_at_the_end(room):
    """A sync of the closes at the end of a session fails, once, and then with all after it. The answers are those of a session in which none fails; the exit status is 4, and the files whose close failed are told and counted. The others are sound."""
    command = command_of_a_session(room)
    command.stdin = b"".join(LEFT_OPEN)
    whole, syncs, _, _ = command.ends(Calls("sync"), "whole")
    wants((whole.returncode, whole.stderr, len(frames_in(whole.stdout)[0])), (0, b"", len(LEFT_OPEN)), "exit status, standard error and how many answers, where no sync fails")
    for behind in range(4):
        for count in (1, -1):
            calls = Calls("sync", syncs - behind, count)
            ended, _, _, place = command.ends(calls, f"{behind}-behind-{count}")
            failed = [name for name, those in LAST_SYNCS.items() if (behind in those if count == 1 else behind >= min(those))]
            told = "".join(f"cobix: {it}: input/output error\n" for it in failed) + f"cobix: CLOSE failed at the end of the session, of files: {len(failed)}\n"
            wants((ended.returncode, ended.stderr.decode()), (4, told), f"exit status and standard error, with {calls}")
            wants(ended.stdout == whole.stdout, True, f"whether the answers are the same, with {calls}")
            for name in WRITTEN.keys() - failed:
                wants(records_of(room, place / name), listed(WRITTEN[name]), f"the records of {name}, with {calls}")


# ---- cases whose device or writer fails: the folders of cases that have a file `needs`


def case_run(room, case, n, calls, options=(), **how):
    """Runs a deck of a case over the files of the room, with failing calls. Answers how it ended and how many calls failed."""
    words = [room.program, "run", case / f"deck-{n}", "--folder", room.files, *options]
    ended, made, failed = calls.made(words, room.place / "count", **how)
    return ended, made, failed


def transcript(case, n):
    return (case / f"transcript-{n}").read_bytes()


def read_that_the_disk_refuses(room, case):
    """In run 2 a read fails, once: each one for which the first READ NEXT answers 30."""
    wants(case_run(room, case, 1, Calls())[0].stdout, transcript(case, 1), "run 1")
    reads = case_run(room, case, 2, Calls("pread"))[1]
    told = [case_run(room, case, 2, Calls("pread", n, 1))[0].stdout for n in range(1, reads + 1)]
    met = [it for it in told if b"READ NEXT CUST 30" in it.splitlines()[1:2]]
    wants(len(met) > 0, True, "whether a read of the first READ NEXT failed")
    for it in met:
        wants(it, transcript(case, 2), "run 2")


def write_that_the_disk_refuses(room, case):
    """In run 2 the third write fails, once, and the file has one frame."""
    wants(case_run(room, case, 1, Calls())[0].stdout, transcript(case, 1), "run 1")
    ended, _, failed = case_run(room, case, 2, Calls("pwrite", 3, 1), ["--frames", "1"])
    wants((failed, ended.stdout), (1, transcript(case, 2)), "run 2")
    wants(case_run(room, case, 3, Calls())[0].stdout, transcript(case, 3), "run 3")


def writer_that_refuses(room, case):
    """In run 1 the writer of the transcript refuses its first byte."""
    ended, _, failed = case_run(room, case, 1, Calls("write", 1, 1))
    told = b"cobix: output\n  standard output: the system refused it\n"
    wants((failed, ended.returncode, ended.stdout, ended.stderr), (1, 4, transcript(case, 1), told), "run 1")
    wants(case_run(room, case, 2, Calls())[0].stdout, transcript(case, 2), "run 2")


DEVICE_CASES = {
    "a-read-that-the-disk-refuses": read_that_the_disk_refuses,
    "a-write-that-the-disk-refuses": write_that_the_disk_refuses,
    "a-writer-that-refuses": writer_that_refuses,
}


def each_case_is_performed(room):
    """Each case that a run alone cannot perform is performed here."""
    wants(sorted(it.parent.name for it in HERE.glob("*/needs")), sorted(DEVICE_CASES), "the cases that need a device or a writer that fails")


# ---- frames with damage


def drawn_requests(chosen):
    """Requests of a session over two files, most of which can be performed."""
    area = lambda: f"{chosen.randrange(40):04}{chosen.choice(['ADAMS ', 'SMITH '])}OSLO  "
    verbs = [
        lambda n: performs(n, OPEN, chosen.choice([INPUT, OUTPUT, I_O, I_O, I_O])),
        lambda n: performs(n, CLOSE, chosen.choice([0, 0, 0, 1])),
        lambda n: performs(n, READ_NEXT),
        lambda n: performs(n, READ, key=chosen.randrange(2), area=area()),
        lambda n: performs(n, START, operand=chosen.randrange(3), key=0, part=chosen.randrange(1, 5), area=area()),
        *[lambda n: writes(n, area())] * 4,
        lambda n: performs(n, REWRITE, length=16, area=area()),
        lambda n: performs(n, DELETE, area=area()),
        releases,
        lambda n: describes(n, f"file-{n}.dat"),
    ]
    begun = [it for n in (0, 1) for it in (describes(n, f"file-{n}.dat"), performs(n, OPEN, chosen.choice([OUTPUT, I_O])))]
    return [*begun, *(chosen.choice(verbs)(chosen.randrange(2)) for _ in range(chosen.randrange(4, 24)))]


def damaged(chosen, sent):
    """Requests with some damage, as bytes, and how many requests are before the first."""
    whole = b"".join(sent)
    at = chosen.randrange(len(whole))
    size = chosen.choice([1, 1, 2, 4, 16])
    change = chosen.randrange(6)
    noise = bytes(chosen.choice([0, 1, 2, 3, 255, chosen.randrange(256)]) for _ in range(size))
    if change == 0:
        other = bytearray(whole)
        for n in range(chosen.randrange(1, 5)):
            other[chosen.randrange(at, len(whole))] = chosen.choice([0, 1, 255, chosen.randrange(256)])
        other = bytes(other)
    elif change == 1:
        other = whole[:at] + whole[at + size :]
    elif change == 2:
        other = whole[:at] + noise + whole[at:]
    elif change == 3:
        other = whole[:at]
    elif change == 4:
        other = whole[:at] + whole[chosen.randrange(len(whole)) :]
    else:
        other = whole[:at] + noise * chosen.randrange(1, 2000)
    same = next((n for n, (a, b) in enumerate(zip(whole, other)) if a != b), min(len(whole), len(other)))
    ends = [sum(map(len, sent[: n + 1])) for n in range(len(sent))]
    return other, sum(end <= same for end in ends)


LIMIT = 8192


def requests_in(data):
    """How many answers bytes are owed: one for each whole frame, and one for a length past the limit, which is the last."""
    answers = 0
    while len(data) >= 2:
        size = int.from_bytes(data[:2], "big")
        if size > LIMIT:
            return answers + 1
        if len(data) < 2 + size:
            break
        answers, data = answers + 1, data[2 + size :]
    return answers


def served(room, data, name):
    """The answers of a session over a folder of its own, which ends as it should and leaves sound files, and the folder."""
    place = room.place / name
    place.mkdir()
    ended = subprocess.run([room.program, "serve", "--folder", place], input=data, capture_output=True, timeout=SECONDS)
    wants((ended.returncode, ended.stderr), (0, b""), "exit status and standard error")
    answers, rest = frames_in(ended.stdout)
    wants((len(answers), rest), (requests_in(data), b""), "how many answers there are, and what is behind them")
    for it in answers:
        wants(bool(re.fullmatch(rb"\x00[\x01-\x08]|\x01|\x02\d\d.*", it, re.S)), True, f"whether this is an answer: {it[:20]!r}")
    files = sorted(place.iterdir())
    told = room.call([room.program, "check", *files]).stdout.decode().splitlines() if files else []
    wants((len(told), all("sound records" in it and "unsound" not in it for it in told)), (len(files), True), f"whether each file is sound: {told!r:.200}")
    shutil.rmtree(place)
    return answers


def damaged_session(room, seed, name):
    """A session with damage answers the requests before it as the session without it does. Answers whether there were any."""
    chosen = random.Random(seed)
    sent = drawn_requests(chosen)
    data, before = damaged(chosen, sent)
    try:
        found = served(room, data, name)
        if not before:
            return False
        wants(found[:before], served(room, b"".join(sent[:before]), f"{name}-whole"), "the answers before the damage")
        return True
    except subprocess.TimeoutExpired:
        raise Wrong(f"seed {seed}: the session did not end") from None
    except Wrong as wrong:
        raise Wrong(f"seed {seed}: {wrong}") from None


def frames_with_damage(room):
    alike = each(room, [functools.partial(damaged_session, room, seed) for seed in range(SESSIONS)])
    wants((len(alike), sum(alike) > SESSIONS // 2), (SESSIONS, True), "how many sessions there were, and whether most had answers before the damage")


# ---- streams that are closed


def closed_streams(room, numbers):
    """A load, a list, a check and a session with these streams closed: no stream's bytes come into a file, and what is told is true."""
    room.made()
    text = room.place / "text"
    text.write_text(TEXT)
    load = [room.program, "load", _deck(room, NEW), "--folder", room.files, "--file", "CUST", "--into", text]
    for words, whole in [
        (load, b"loaded 20\n"),
        ([room.program, "list", room.cust, "--first", "1"], f"[{record(1)}]\n".encode()),
        ([room.program, "serve", "--folder", room.files], b""),
    ]:
        before = room.cust.read_bytes()
        ended = room.call(words, stdin=subprocess.DEVNULL, preexec_fn=streams_closed(*numbers))
        wants(ended.returncode in (0, 4), True, f"whether {words[1]} ends with 0 or 4: {ended.returncode}")
        if 1 not in numbers and not (0 in numbers and words[1] == "serve"):
            wants((ended.returncode, ended.stdout), (0, whole), f"{words[1]}: exit status and standard output")
        if 1 in numbers and whole:
            wants(ended.returncode, 4, f"{words[1]}: exit status without standard output")
        if words is not load:
            wants(room.cust.read_bytes() == before, True, f"{words[1]}: whether the file is as it was")
    found = records_of(room, room.cust)
    wants(found in (listed(BEFORE), [*listed(BEFORE), *TEXT.splitlines()]), True, "whether the records are those of before, or those of the text too")
    wants(sorted(it.name for it in room.files.iterdir()), ["cust.dat"], "the files of the folder")


# ---- runs that race


def raced(room, texts, chosen):
    """Two runs that are started at once, and the statuses of each."""
    started = []
    for it in texts:
        started.append(subprocess.Popen(room.words(it), stdin=subprocess.DEVNULL, stdout=subprocess.PIPE, stderr=subprocess.DEVNULL))
        if chosen.random() < 0.5:
            subprocess.run(["sleep", str(chosen.choice([0.001, 0.002, 0.004]))])
    told = [it.communicate(timeout=SECONDS)[0].decode() for it in started]
    wants([it.returncode for it in started], [0, 0], "exit statuses")
    return [re.findall(r" CUST (\d\d)", it) for it in told]


GOOD = ["00", "00", "00"]


def two_that_make(room):
    """Two runs make one file at once: it has the record of one that closed it, or none did."""
    chosen = random.Random(2)
    both = one = 0
    for round in range(ROUNDS):
        room.cust.unlink(missing_ok=True)
        statuses = raced(room, [deck("OPEN OUTPUT CUST", *added(n), "CLOSE CUST") for n in (1, 2)], chosen)
        done = [n for n, it in zip((1, 2), statuses) if it == GOOD]
        for it in statuses:
            wants(it == GOOD or "30" in it, True, f"round {round}: whether a run that is not done was answered 30: {it}")
        if done:
            wants(records_of(room, room.cust) in [listed([record(n)]) for n in done], True, f"round {round}: whether the file has the record of a run that is done")
        both, one = both + (len(done) == 2), one + (len(done) == 1)
    wants(both + one > ROUNDS // 2, True, f"whether most rounds made a file: {both} by both, {one} by one of ${ROUNDS}".replace("$", ""))


OPTIONAL = ("SELECT CUST", "SELECT OPTIONAL CUST")
BEGUN = ["05", "00", "00"]


def begins(number):
    """A deck that adds a record to an optional file, and begins the file where it is absent."""
    return deck("OPEN I-O CUST", *added(number), "CLOSE CUST").decode().replace(*OPTIONAL).encode()


def two_that_begin(room):
    """Two runs open an optional file that is absent, and add a record each: one of them is done, or both are. Who is not done was answered 30."""
    chosen = random.Random(3)
    for round in range(ROUNDS):
        room.cust.unlink(missing_ok=True)
        statuses = raced(room, [begins(n) for n in (1, 2)], chosen)
        done = [n for n, it in zip((1, 2), statuses) if it in (GOOD, BEGUN)]
        for it in statuses:
            wants(it in (GOOD, BEGUN) or it[0] == "30" or it[1] == "30", True, f"round {round}: whether a run that is not done was answered 30: {statuses}")
        wants((len(done) > 0, records_of(room, room.cust)), (True, listed([record(n) for n in done])), f"round {round}: whether a run is done, and the records, {statuses}")


def load_beside_a_run(room):
    """A load into a file races with a run that adds a record to it."""
    chosen = random.Random(4)
    text = room.place / "text"
    text.write_text(f"[{record(50)}]\n")
    describing = _deck(room, NEW)
    loaded = added_too = 0
    for round in range(ROUNDS):
        before = room.made()
        load = subprocess.Popen([room.program, "load", describing, "--folder", room.files, "--file", "CUST", "--into", text], stdin=subprocess.DEVNULL, stdout=subprocess.PIPE, stderr=subprocess.PIPE)
        if chosen.random() < 0.7:
            subprocess.run(["sleep", str(chosen.choice([0.001, 0.002, 0.004]))])
        lines = room.run(deck("OPEN I-O CUST", *added(40), "CLOSE CUST"))
        out, _ = load.communicate(timeout=SECONDS)
        is_loaded, is_added = out == b"loaded 1\n" and load.returncode == 0, lines == ["OPEN I-O CUST 00", "WRITE CUST 00", "CLOSE CUST 00"]
        wants(is_loaded or b"status 30" in out or b"30" in out or load.returncode in (1, 4), True, f"round {round}: the load, {out!r}")
        wants(is_added or any(it.endswith("30") for it in lines), True, f"round {round}: the run, {lines}")
        wanted = listed([*BEFORE, *([record(40)] if is_added else []), *([record(50)] if is_loaded else [])])
        wants(records_of(room, room.cust), wanted, f"round {round}: the records, load {out!r}, run {lines}")
        loaded, added_too = loaded + is_loaded, added_too + is_added
    wants((loaded > 0, added_too > 0), (True, True), f"whether some loads and some runs were done: {loaded}, {added_too}")


# ---- a file that is made, and has no lock yet


class Halted:
    """A command that is halted at the first lock of this kind, or has ended without one."""

    def __init__(self, room, words, at):
        self.place = Path(tempfile.mkdtemp(dir=room.place))
        surroundings = {**os.environ, "LD_PRELOAD": str(preloaded("halt-locks")[1]), "HALT_AT": at, "HALTED": str(self.place / "halted"), "GO": str(self.place / "go")}
        self.process = subprocess.Popen(words, stdin=subprocess.DEVNULL, stdout=subprocess.PIPE, stderr=subprocess.PIPE, env=surroundings)
        until = time.monotonic() + SECONDS
        while not self.is_halted() and self.process.poll() is None and time.monotonic() < until:
            time.sleep(0.002)

    def is_halted(self):
        return (self.place / "halted").exists()

    def go(self):
        (self.place / "go").touch()

    def told(self):
        """Lets it go, and answers its standard output and standard error."""
        self.go()
        out, err = self.process.communicate(timeout=SECONDS)
        return out.decode(), err.decode()

    def statuses(self):
        return re.findall(r" (?:CUST|TWIN) (\d\d)", self.told()[0])

    def kill(self):
        self.process.kill()
        self.process.communicate(timeout=SECONDS)


BEFORE_ITS_LOCK = "before exclusive file"
IN_USE = "another run has it"


def maker_at_its_lock(room):
    """A run that has begun the file, and has no lock on it yet."""
    maker = Halted(room, room.words(begins(1)), BEFORE_ITS_LOCK)
    wants((maker.is_halted(), room.cust.stat().st_size), (True, 0), "whether the run is halted at its lock, and the bytes of the file")
    return maker


def wants_begun(room, maker, *records):
    wants((maker.statuses(), records_of(room, room.cust)), (BEGUN, listed([record(n) for n in records])), "what the run that began the file is answered, and the records")


def file_in_the_making(room):
    """Whoever opens it is told that another run has it. The run that makes it has it then."""
    maker = maker_at_its_lock(room)
    for text in (begins(2), LOOK, NEW):
        wants(room.run(text)[0].split()[-1], "30", "a run beside it")
        wants(IN_USE in room.told, True, f"whether that is the cause: {room.told!r}")
    for words in ("check", "list"):
        ended = room.call([room.program, words, room.cust])
        wants((ended.returncode, IN_USE in ended.stderr.decode()), (4, True), f"{words} beside it: {ended.stderr!r}")
    requests = describes(0, "cust.dat", 1000, 1000, [(0, 6, False)]) + performs(0, OPEN, I_O)
    session = room.call([room.program, "serve", "--folder", room.files], input=requests, stdin=None)
    wants(session.stdout[-2:], b"30", f"the OPEN of a session beside it: {session.stdout!r}")
    wants_begun(room, maker, 1)


def file_in_the_making_is_waited_for(room):
    maker = maker_at_its_lock(room)
    wait = ["--wait", str(SECONDS // 2)]
    others = [subprocess.Popen(it, stdin=subprocess.DEVNULL, stdout=subprocess.PIPE) for it in (room.words(begins(2), wait), [room.program, "check", room.cust, *wait])]
    time.sleep(1)
    wants([it.poll() for it in others], [None, None], "whether the run and the check wait")
    wants(maker.statuses(), BEGUN, "the run that began the file")
    run, check = (it.communicate(timeout=SECONDS)[0].decode() for it in others)
    wants(re.findall(r" CUST (\d\d)", run), GOOD, "the run that waited")
    wants(check.startswith("sound records"), True, f"the check that waited: {check!r}")
    wants(records_of(room, room.cust), listed([record(1), record(2)]), "the records")


def reader_that_is_slow(room):
    """A run that would keep the lock of the empty file has none of it."""
    maker = maker_at_its_lock(room)
    reader = Halted(room, room.words(begins(2)), "after shared file")
    wants_begun(room, maker, 1)
    wants((reader.is_halted(), reader.statuses()[0]), (False, "30"), "whether the other run had its lock, and what its OPEN is answered")


def reader_that_has_opened_it(room):
    """A run that has opened the empty file, and takes no lock before it is made, opens it anew."""
    maker = maker_at_its_lock(room)
    reader = Halted(room, room.words(begins(2)), "before shared folder")
    wants(reader.is_halted(), True, "whether the other run is about to lock the folder")
    wants_begun(room, maker, 1)
    wants((reader.statuses(), records_of(room, room.cust)), (GOOD, listed([record(1), record(2)])), "the other run, and the records")


def reader_by_a_link(room):
    """It locks the folder of its link alone. The run that makes the file waits until its look is over."""
    link = room.place / "link"
    link.symlink_to(room.cust)
    maker = maker_at_its_lock(room)
    reader = Halted(room, [room.program, "check", link], "after shared file")
    wants(reader.is_halted(), True, "whether the check has the lock")
    maker.go()
    time.sleep(0.2)
    wants(reader.told()[0], "unsound 1\n", "the check")
    wants_begun(room, maker, 1)


def maker_that_is_killed(room):
    """It leaves an empty file, which OPEN refuses and OPEN OUTPUT makes anew."""
    maker_at_its_lock(room).kill()
    wants(room.cust.stat().st_size, 0, "the bytes of the file")
    wants((room.run(begins(2))[0], room.check().stdout), ("OPEN I-O CUST 91", b"unsound 1\n"), "the next run, and the check")
    room.made()
    room.wants_sound(5)


def folder_that_is_locked_for_long(room):
    """A file is made though another program keeps a lock of the folder, after two seconds. A file with bytes is opened at once. Of an empty one it cannot be known whether a run is about to lock it."""
    empty = room.files / "twin.dat"
    for lock in (fcntl.LOCK_EX, fcntl.LOCK_SH):
        room.cust.unlink(missing_ok=True)
        empty.write_bytes(b"")
        end = os.open(room.files, os.O_RDONLY)
        fcntl.flock(end, lock)
        began = time.monotonic()
        room.made()
        wants(time.monotonic() - began >= 2, True, "whether the lock was waited for")
        wants(room.run(LOOK), LOOKED, "a run that reads the file")
        wants(room.run(deck("OPEN I-O TWIN"))[0].split()[-1], "30" if lock == fcntl.LOCK_EX else "91", "the OPEN of an empty file")
        os.close(end)
        wants(room.run(deck("OPEN I-O TWIN")), ["OPEN I-O TWIN 91"], "the OPEN of an empty file in a folder without a lock")


def makers_and_readers_of_one_folder(room):
    """Who opens an empty file has the shared lock of the folder. Who makes another file there waits until that is over."""
    (room.files / "twin.dat").write_bytes(b"")
    reader = Halted(room, room.words(deck("OPEN I-O TWIN")), "after shared folder")
    wants(reader.is_halted(), True, "whether the run that opens the empty file has the folder's lock")
    maker = Halted(room, room.words(begins(1)), BEFORE_ITS_LOCK)
    wants((maker.is_halted(), reader.process.poll()), (True, None), "whether the file is made all the same, after two seconds")
    maker.kill()
    room.cust.unlink()
    maker = Halted(room, room.words(begins(1)), "before exclusive folder")
    maker.go()
    time.sleep(0.5)
    wants((room.cust.exists(), reader.statuses()), (False, ["91"]), "whether the file is made before, and the OPEN of the empty file")
    wants_begun(room, maker, 1)


IN_THE_MAKING = {
    "is opened": file_in_the_making,
    "is waited for": file_in_the_making_is_waited_for,
    "meets a slow reader": reader_that_is_slow,
    "was opened before": reader_that_has_opened_it,
    "is read by a link": reader_by_a_link,
    "is left by a run that is killed": maker_that_is_killed,
}


# ---- a client that does not read


def client_that_never_reads(room):
    """The session waits for it, and keeps its locks. Once the client is gone, the session closes its files and ends."""
    room.made()
    ours, theirs = os.pipe()
    fcntl.fcntl(theirs, fcntl.F_SETPIPE_SZ, PIPE)
    session = subprocess.Popen([room.program, "serve", "--folder", room.files], stdin=subprocess.PIPE, stdout=theirs, stderr=subprocess.PIPE)
    os.close(theirs)
    session.stdin.write(b"".join([*SENT[:3], *[performs(0, READ, area="000001")] * 40]))
    session.stdin.flush()
    until = time.monotonic() + SECONDS
    while not select.select([ours], [], [], 1)[0] and time.monotonic() < until:
        pass
    time.sleep(0.5)
    wants(session.poll(), None, "exit status while the client reads nothing")
    wants(room.run(deck("OPEN I-O CUST", *added(12)))[0], "OPEN I-O CUST 30", "a run beside it")
    os.close(ours)
    session.stdin.close()
    wants((session.wait(SECONDS), session.stderr.read().split(b"\n")[0]), (4, b"cobix: output"), "exit status and standard error of the session")
    session.stderr.close()
    room.wants_sound(6)


# ---- an output that takes no more


def output_that_is_full(room, command):
    """Standard output that does not wait and is full: the command ends with `cobix: output`, as with any writer that refuses."""
    room.made()
    end, writer = os.pipe()
    os.set_blocking(writer, False)
    try:
        while True:
            os.write(writer, bytes(4096))
    except BlockingIOError:
        pass
    if command == "run":
        words, given = room.words(deck("OPEN INPUT CUST", "READ CUST NEXT", "CLOSE CUST")), b""
    else:
        words, given = [room.program, "serve", "--folder", room.files], describes(0, "cust.dat", 1000, 1000, [(0, 6, False)])
    before = room.cust.read_bytes()
    ended = subprocess.run(words, input=given, stdout=writer, stderr=subprocess.PIPE, timeout=SECONDS)
    os.close(writer)
    os.close(end)
    wants((ended.returncode, ended.stderr.split(b"\n")[0]), (4, b"cobix: output"), "exit status and standard error")
    wants(room.cust.read_bytes() == before, True, "whether the file is as it was")


# ---- all of them


def trials():
    for name in COMMANDS:
        yield f"{name}: each call of the system fails in turn", lambda room, name=name: each_call_fails(room, name)
        yield f"{name}: calls of the system are interrupted", lambda room, name=name: calls_are_interrupted(room, name)
    yield "serve: closes at the end of a session fail", closes_fail_at_the_end
    for name, perform in DEVICE_CASES.items():
        yield name, lambda room, name=name, perform=perform: perform(room, HERE / name)
    yield "each case that needs a failing device is performed", each_case_is_performed
    yield f"{SESSIONS} sessions of frames with damage", frames_with_damage
    for chosen in range(8):
        numbers = [n for n in range(3) if chosen >> n & 1]
        yield f"load, list and serve with streams closed: {numbers}", lambda room, numbers=numbers: closed_streams(room, numbers)
    yield f"{ROUNDS} rounds of two runs that make one file", two_that_make
    yield f"{ROUNDS} rounds of two runs that begin an optional file", two_that_begin
    for name, perform in IN_THE_MAKING.items():
        yield f"a file in the making {name}", perform
    yield "a folder that is locked for long", folder_that_is_locked_for_long
    yield "makers and readers of one folder", makers_and_readers_of_one_folder
    yield f"{ROUNDS} rounds of a load beside a run", load_beside_a_run
    yield "a client that never reads its answers", client_that_never_reads
    for command in ("run", "serve"):
        yield f"{command}: standard output that is full and does not wait", lambda room, it=command: output_that_is_full(room, it)
