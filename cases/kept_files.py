"""Files that a run keeps open: a folder that cannot be had or synced, too few descriptors, and names that are given to other files meanwhile.

`trials()` gives each by its name, as those of edges.py.
"""
import os
import resource
import shutil
import subprocess
from pathlib import Path

from edges import NEW, Held, Lacking, added, deck, delivered, opened_to_all, unprivileged, wants
from sessions import CLOSE, DONE, I_O, INPUT, OPEN, OUTPUT, READ_NEXT, client, describes, performs, told, writes

HERE = Path(__file__).resolve().parent
CHANGE = deck("OPEN I-O CUST", *added(11), "CLOSE CUST")
CHANGED = ["OPEN I-O CUST 00", "WRITE CUST 00", "CLOSE CUST 00"]
NOT_CHANGED = ["OPEN I-O CUST 00", "WRITE CUST 30", "CLOSE CUST 30"]
LOOK = deck("OPEN INPUT CUST", "READ CUST NEXT", "CLOSE CUST")
LOOKED = ["OPEN INPUT CUST 00", *delivered("READ NEXT", 1), "CLOSE CUST 00"]


def lines_of(room, text, **how):
    """The lines of the transcript of a run that ends with exit status 0, whatever it tells on standard error."""
    ended = room.call(room.words(text), **how)
    wants(ended.returncode, 0, "exit status")
    return ended.stdout.decode().splitlines()


def wants_records(room, path, records):
    wants(room.check(path).stdout.decode().split(" pages")[0], f"sound records {records}", f"cobix check of {path.name}")


# ---- a folder that cannot be had


def unreadable_folder(room):
    """A folder whose names may not be read, though its files may be written: a file is read, and no change of it begins."""
    before = room.made()
    room.cust.chmod(0o666)
    opened_to_all(room)
    room.files.chmod(0o711 if os.geteuid() == 0 else 0o111)
    how = unprivileged()
    try:
        found = [lines_of(room, it, **how) for it in (LOOK, CHANGE, deck("OPEN OUTPUT CUST"), LOOK)]
    finally:
        room.files.chmod(0o755)
    wants(found, [LOOKED, NOT_CHANGED, ["OPEN OUTPUT CUST 30"], LOOKED], "the transcripts")
    wants(room.cust.read_bytes(), before, "bytes of the file")


def file_in_unreadable_folder(room):
    """A file is not made in a folder that cannot be synced."""
    opened_to_all(room)
    room.files.chmod(0o733 if os.geteuid() == 0 else 0o333)
    try:
        found = lines_of(room, NEW, **unprivileged())
    finally:
        room.files.chmod(0o755)
    wants((found[0], list(room.files.iterdir())), ("OPEN OUTPUT CUST 30", []), "the transcript, and files of the folder")


# ---- too few descriptors


def limited(descriptors):
    def limit():
        resource.setrlimit(resource.RLIMIT_NOFILE, (descriptors, descriptors))

    return {"preexec_fn": limit}


def few_descriptors(room):
    """With each number of descriptors a file is changed, or it is as it was; and it is read with one descriptor beside the three streams."""
    room.made()
    records = 5
    wants(lines_of(room, LOOK, **limited(4)), LOOKED, "a run that reads, with 4 descriptors")
    for descriptors in range(4, 8):
        before = room.cust.read_bytes()
        number = 10 + descriptors
        found = lines_of(room, deck("OPEN I-O CUST", *added(number), "CLOSE CUST"), **limited(descriptors))
        if found == CHANGED:
            records += 1
        else:
            wants((found, room.cust.read_bytes()), (NOT_CHANGED, before), f"with {descriptors} descriptors")
        wants_records(room, room.cust, records)
        made = lines_of(room, deck("OPEN OUTPUT TWIN", "CLOSE TWIN"), **limited(descriptors))
        twin = room.files / "twin.dat"
        if made == ["OPEN OUTPUT TWIN 00", "CLOSE TWIN 00"]:
            wants_records(room, twin, 0)
            twin.unlink()
        else:
            wants((made, twin.exists()), (["OPEN OUTPUT TWIN 30", "CLOSE TWIN 42"], False), f"with {descriptors} descriptors")
    wants(records > 5, True, "the file was changed at last")


RECORD = "0001ADAMS OSLO  "
MORE = "0002SMITH BERGEN"
NEXT = "0003SMITH TROMSO"


def asked(room, *requests, **how):
    """The answers to the requests of a session that ends with exit status 0."""
    words = [room.program, "serve", "--folder", room.files]
    ended = subprocess.run(words, input=b"".join(requests), capture_output=True, timeout=120, **how)
    wants(ended.returncode, 0, "exit status")
    answers, rest = [], ended.stdout
    while rest:
        length = int.from_bytes(rest[:2], "big")
        answers.append(rest[: 2 + length])
        rest = rest[2 + length :]
    wants(len(answers), len(requests), "answers")
    return answers


FILES = 16


def session_with_few_descriptors(room):
    """A session over more files than it has descriptors: each file that it changed has the record, and each other is as it was."""
    paths = [room.files / f"f{n}.dat" for n in range(FILES)]
    made = [it for n, path in enumerate(paths) for it in (describes(n, path.name), performs(n, OPEN, OUTPUT), writes(n, RECORD), performs(n, CLOSE))]
    asked(room, *made)
    before = [it.read_bytes() for it in paths]
    changes = [it for n, path in enumerate(paths) for it in (describes(n, path.name), performs(n, OPEN, I_O), writes(n, MORE))]
    changes += [performs(n, CLOSE) for n in range(FILES)]
    changed = 0
    for descriptors in (8, 3 + FILES, 3 + FILES + FILES // 2):
        answers = asked(room, *changes, **limited(descriptors))
        for n, path in enumerate(paths):
            if answers[3 * n + 2] == told("00"):
                wants(answers[3 * FILES + n], told("00"), f"CLOSE of a file that was changed, with {descriptors} descriptors")
                wants_records(room, path, 2)
                changed += 1
            else:
                wants(path.read_bytes(), before[n], f"bytes of {path.name}, with {descriptors} descriptors")
            path.write_bytes(before[n])
    wants(0 < changed < 3 * FILES, True, "some files were changed, and others not")


# ---- a sync of the folder that fails


def failing_sync(room, number):
    """The surroundings of a run whose sync of a folder with this number fails."""
    library = room.place / "fail-folder-sync.so"
    for compiler in filter(shutil.which, ["cc", "gcc", "clang"]):
        words = [compiler, "-O1", "-shared", "-fPIC", "-o", library, HERE / "fail-folder-sync.c"]
        if library.exists() or subprocess.run(words, capture_output=True).returncode == 0:
            return {"env": {**os.environ, "LD_PRELOAD": str(library), "FAILED": str(number)}}
    raise Lacking("a C compiler")


def of_twin(*statements):
    return [it.replace("CUST", "TWIN") for it in statements]


def folder_sync_fails_for_files_that_are_there(room):
    """Where no file is made, no sync of the folder is asked: neither for a change nor by OPEN OUTPUT."""
    room.made()
    how = failing_sync(room, 1)
    wants(lines_of(room, CHANGE, **how), CHANGED, "a change")
    wants_records(room, room.cust, 6)
    found = lines_of(room, NEW, **how)
    wants((found[0], found[-1]), ("OPEN OUTPUT CUST 00", "CLOSE CUST 00"), "a file that is made anew")
    wants_records(room, room.cust, 5)


def folder_sync_fails_once(room):
    """A file whose name did not reach the disk is not made. After that no change of another file begins, and one that is held goes on."""
    room.made()
    twin = room.files / "twin.dat"
    third = deck(*of_twin("OPEN OUTPUT CUST", "CLOSE CUST"), "OPEN I-O CUST", *added(11), "CLOSE CUST")
    before = room.cust.read_bytes()
    found = lines_of(room, third, **failing_sync(room, 1))
    wants(found, ["OPEN OUTPUT TWIN 30", "CLOSE TWIN 42", *NOT_CHANGED], "a file that is made first")
    wants(room.cust.read_bytes(), before, "bytes of the file")
    twin.unlink()
    held = deck("OPEN I-O CUST", *added(11), *of_twin("OPEN OUTPUT CUST", "CLOSE CUST"), *added(12), "CLOSE CUST")
    found = lines_of(room, held, **failing_sync(room, 1))
    wants(found, ["OPEN I-O CUST 00", "WRITE CUST 00", "OPEN OUTPUT TWIN 30", "CLOSE TWIN 42", "WRITE CUST 00", "CLOSE CUST 00"], "a file that is held before")
    wants_records(room, room.cust, 7)


def folder_sync_fails_for_a_file_that_was_left_unfinished(room):
    """A file whose making was stopped may have no name on the disk: before it is made anew the folder is synced."""
    room.cust.write_bytes(b"D")
    wants(lines_of(room, NEW, **failing_sync(room, 1))[0], "OPEN OUTPUT CUST 30", "a file that is made anew")
    wants(room.cust.read_bytes(), b"D", "bytes of the file")
    room.made()
    wants_records(room, room.cust, 5)


# ---- a name that is given to another file


def replace(path):
    """Gives the name to a copy of the file, and keeps the file under another name."""
    copy, old = path.with_suffix(".copy"), path.with_suffix(".old")
    shutil.copy(path, copy)
    path.rename(old)
    copy.rename(path)
    return old


def exchange(send, one_write, *steps):
    for request, answer in steps:
        send(request)
        wants(one_write(), answer, "an answer")


DESCRIBED = (describes(0, "cust.dat"), DONE)
FIRST = [DESCRIBED, (performs(0, OPEN, OUTPUT), told("00")), (writes(0, RECORD), told("00")), (performs(0, CLOSE), told("00"))]
AGAIN = [(performs(0, OPEN, I_O), told("00")), (writes(0, NEXT), told("02")), (performs(0, CLOSE), told("00"))]


def replaced_while_a_session_has_it_closed(room):
    """The file that has the name is the one that the next OPEN opens."""
    with client(room) as (send, one_write):
        exchange(send, one_write, *FIRST, (performs(0, OPEN, I_O), told("00")), (writes(0, MORE), told("00")), (performs(0, CLOSE), told("00")))
        old = replace(room.cust)
        exchange(send, one_write, *AGAIN)
    wants_records(room, room.cust, 3)
    wants_records(room, old, 2)


def made_by_another_run_while_a_session_has_it_closed(room):
    """A file that another run made under the name, after it was removed, is the one that the next OPEN opens."""
    with client(room) as (send, one_write):
        exchange(send, one_write, *FIRST)
        room.cust.unlink()
        asked(room, describes(0, "cust.dat"), performs(0, OPEN, OUTPUT), writes(0, MORE), performs(0, CLOSE))
        exchange(send, one_write, *AGAIN, (performs(0, OPEN, INPUT), told("00")), (performs(0, READ_NEXT), told("00", MORE)), (performs(0, CLOSE), told("00")))
    wants_records(room, room.cust, 2)


def removed_while_a_session_has_it_closed(room):
    """No file has the name: OPEN answers 35, and OPEN OUTPUT makes it."""
    with client(room) as (send, one_write):
        exchange(send, one_write, *FIRST)
        room.cust.unlink()
        exchange(send, one_write, (performs(0, OPEN, I_O), told("35")), *FIRST[1:])
    wants_records(room, room.cust, 1)


def replaced_while_a_session_has_it_open(room):
    """CLOSE of a changed file answers 30 where another file has its name; that one is as it was."""
    with client(room) as (send, one_write):
        exchange(send, one_write, *FIRST, AGAIN[0], (writes(0, MORE), told("00")))
        room.cust.rename(room.files / "old.dat")
        shutil.copy(room.files / "old.dat", room.cust)
        before = room.cust.read_bytes()
        exchange(send, one_write, (performs(0, CLOSE), told("30")))
    wants(room.cust.read_bytes(), before, "bytes of the file that has the name")


def removed_while_a_session_has_it_open(room):
    with client(room) as (send, one_write):
        exchange(send, one_write, *FIRST, AGAIN[0], (writes(0, MORE), told("00")))
        room.cust.unlink()
        exchange(send, one_write, (performs(0, CLOSE), told("30")))
    wants(list(room.files.iterdir()), [], "files of the folder")


def replaced_before_the_first_change(room):
    """A file that has lost its name before its first change is not changed, and stays sound under the other name."""
    asked(room, *(request for request, _ in FIRST))
    with client(room) as (send, one_write):
        exchange(send, one_write, DESCRIBED, AGAIN[0])
        old = replace(room.cust)
        exchange(send, one_write, (writes(0, MORE), told("30")), (performs(0, CLOSE), told("30")), AGAIN[0], (writes(0, MORE), told("00")), AGAIN[2])
    wants_records(room, room.cust, 2)
    wants_records(room, old, 1)


def replaced_between_two_openings_of_a_run(room):
    """A run that closed the file and opens it again opens the one that has the name."""
    room.made()
    room.run(deck(*of_twin("OPEN OUTPUT CUST", *added(1, 2, 3, 4, 5), "CLOSE CUST")))
    reads = of_twin("OPEN INPUT CUST", *["READ CUST NEXT"] * 5)
    run = Held(room.words(deck("OPEN I-O CUST", *added(11), "CLOSE CUST", *reads, "OPEN I-O CUST", *added(12), "CLOSE CUST")))
    old = replace(room.cust)
    lines = run.lines()
    wants(lines[:3] + lines[-4:-1], CHANGED + CHANGED, "the transcript")
    wants_records(room, room.cust, 7)
    wants_records(room, old, 6)


# ---- all of them


def trials():
    yield "a folder that may not be read", unreadable_folder
    yield "a file that would be made in a folder that may not be read", file_in_unreadable_folder
    yield "too few descriptors", few_descriptors
    yield "a session with too few descriptors", session_with_few_descriptors
    yield "a sync of the folder that fails, and files that are there", folder_sync_fails_for_files_that_are_there
    yield "a sync of the folder that fails once", folder_sync_fails_once
    yield "a sync of the folder that fails, and a file that was left unfinished", folder_sync_fails_for_a_file_that_was_left_unfinished
    yield "a file that is replaced while a session has it closed", replaced_while_a_session_has_it_closed
    yield "a file that another run makes while a session has it closed", made_by_another_run_while_a_session_has_it_closed
    yield "a file that is removed while a session has it closed", removed_while_a_session_has_it_closed
    yield "a file that is replaced while a session has it open and changed", replaced_while_a_session_has_it_open
    yield "a file that is removed while a session has it open and changed", removed_while_a_session_has_it_open
    yield "a file that is replaced before its first change", replaced_before_the_first_change
    yield "a file that is replaced between two openings of a run", replaced_between_two_openings_of_a_run
