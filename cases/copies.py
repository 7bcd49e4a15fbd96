"""Copies of a file into a new one: files of 0, 1 and 2,000 records, of one length and of several, in the order of each key, and what stands in the way of a copy.

`trials()` gives each by its name, as those of edges.py.
"""
import random
import re
import resource
import shutil
import signal

from edges import Held, added, deck, wants

FIXED = b"""ENVIRONMENT DIVISION.
INPUT-OUTPUT SECTION.
FILE-CONTROL.
    SELECT GOODS ASSIGN TO "goods.dat" ORGANIZATION IS INDEXED
        ACCESS MODE IS DYNAMIC RECORD KEY IS GOODS-ID
        ALTERNATE RECORD KEY IS GOODS-CODE
        ALTERNATE RECORD KEY IS GOODS-KIND WITH DUPLICATES.
DATA DIVISION.
FILE SECTION.
FD GOODS.
01 GOODS-REC.
    05 GOODS-ID PIC 9(6).
    05 GOODS-CODE PIC X(6).
    05 GOODS-KIND PIC X(2).
    05 GOODS-TEXT PIC X(60).
PROCEDURE DIVISION.
MAIN-LINE.
    STOP RUN.
"""
VARYING = FIXED.replace(b"FD GOODS.", b"FD GOODS\n    RECORD IS VARYING IN SIZE FROM 14 TO 74 CHARACTERS DEPENDING ON GOODS-LEN.")
VARYING = VARYING.replace(b"PROCEDURE DIVISION.", b"WORKING-STORAGE SECTION.\n77 GOODS-LEN PIC 9(2).\nPROCEDURE DIVISION.")
KINDS = 7
LATER = b"""    OPEN I-O GOODS.
    MOVE 999999 TO GOODS-ID.
    MOVE "LATER" TO GOODS-CODE.
    MOVE "K3" TO GOODS-KIND.
    MOVE "WRITTEN INTO THE COPY" TO GOODS-TEXT.
    WRITE GOODS-REC.
    CLOSE GOODS.
    STOP RUN.
"""


def lines_of(count, is_varying):
    """The lines of so many records, in no order of any key."""
    numbers = list(range(1, count + 1))
    random.Random(count).shuffle(numbers)
    records = [f"{n:06}{7 * n % 999983:06}K{n % KINDS}{'GOODS ' * 10}" for n in numbers]
    return [f"[{it[: 14 + n % 61] if is_varying else it}]\n" for n, it in zip(numbers, records)]


def loaded(room, count, text):
    """A file that was loaded with so many lines. Some of its records are then taken out, where there are many, so that it has room within."""
    path = room.place / "goods.deck"
    path.write_bytes(text)
    lines = room.place / "lines"
    lines.write_text("".join(lines_of(count, text is VARYING)))
    ended = room.call([room.program, "load", path, "--folder", room.files, "--file", "GOODS", lines])
    wants((ended.returncode, ended.stdout), (0, f"loaded {count}\n".encode()), "the load")
    if count > 1000:
        taken_out = "".join(f"    MOVE {n} TO GOODS-ID.\n    DELETE GOODS.\n" for n in range(1, count + 1, 3)).encode()
        less = room.place / "less.deck"
        less.write_bytes(text.replace(b"    STOP RUN.\n", b"    OPEN I-O GOODS.\n" + taken_out + b"    CLOSE GOODS.\n    STOP RUN.\n"))
        wants(room.call([room.program, "run", "--strict", less, "--folder", room.files]).returncode, 0, "exit status of the deck that takes records out")
    return room.files / "goods.dat"


def sound(room, file):
    """How many records and pages a file has, which has to be sound."""
    told = room.call([room.program, "check", file]).stdout.decode()
    found = re.fullmatch(r"sound records (\d+) pages (\d+)\n", told)
    wants(bool(found), True, f"whether {file.name} is sound, {told!r}")
    return int(found[1]), int(found[2])


def lists(room, file):
    """The records of a file in the order of each of its keys."""
    return [room.call([room.program, "list", file, "--key", str(key)]).stdout.decode().splitlines() for key in range(3)]


def next_stamp(room, file):
    return re.search(rb"next stamp \d+", room.call([room.program, "schema", file]).stdout)[0]


def copied(room, file, new, *options):
    return room.call([room.program, "copy", file, new, *options])


def copy_has_the_same(room, count, text):
    """A copy has the records of the file in the order of each key, in no more pages; the file is as it was. A duplicate that is written into the copy comes behind those of its value."""
    file = loaded(room, count, text)
    before, (records, pages) = file.read_bytes(), sound(room, file)
    new = room.place / "new"
    new.mkdir()
    ended = copied(room, file, new / "goods.dat")
    there, taken = sound(room, new / "goods.dat")
    wants((ended.returncode, ended.stdout, ended.stderr), (0, b"", f"copied {records} records, {taken} pages\n".encode()), "the copy")
    wants((there, taken <= pages, not records > 1000 or 4 * taken < 3 * pages), (records, True, True), f"records of the copy, and whether {taken} pages are fewer than {pages}")
    wants(lists(room, new / "goods.dat") == lists(room, file), True, "whether the lists by each key are the same")
    wants(next_stamp(room, new / "goods.dat"), next_stamp(room, file), "next stamp")
    wants((file.read_bytes() == before, [it.name for it in room.files.iterdir()], [it.name for it in new.iterdir()]), (True, ["goods.dat"], ["goods.dat"]), "the files")
    if text is FIXED:
        later = room.place / "later.deck"
        later.write_bytes(text.replace(b"    STOP RUN.\n", LATER))
        wants(room.call([room.program, "run", "--strict", later, "--folder", new]).returncode, 0, "exit status of the deck that writes into the copy")
        kinds = [it for it in lists(room, new / "goods.dat")[2] if it[13:15] == "K3"]
        wants(kinds[-1][1:7], "999999", "the last record of its kind")
        wants(sound(room, new / "goods.dat")[0], records + 1, "records")


def heap(room, file):
    """The records of a sound file as they lie in its pages: page by page in the order in which these were taken, slot by slot."""
    told = room.call([room.program, "salvage", file, "--places"])
    wants(told.returncode, 0, f"exit status of a list of {file.name} by places")
    return [line.split(" ", 2)[2] for line in sorted(told.stdout.decode().splitlines(), key=lambda line: [int(it) for it in line.split(" ")[:2]])]


def copy_lies_in_order(room, count, text):
    """A copy in the order of a key has the same records by each key, and they lie in the order of that one. So has a copy of such a copy, in whatever order."""
    file = loaded(room, count, text)
    by_key = lists(room, file)
    new = [room.place / f"by-{key}.dat" for key in range(3)]
    for key in range(3):
        ended = copied(room, file, new[key], "--key", str(key))
        there, taken = sound(room, new[key])
        wants((ended.returncode, ended.stdout, ended.stderr), (0, b"", f"copied {there} records, {taken} pages\n".encode()), f"the copy by key {key}")
        wants(lists(room, new[key]) == by_key, True, f"whether the lists by each key are the same, copied by key {key}")
        wants(heap(room, new[key]) == by_key[key], True, f"whether the records lie in the order of key {key}")
        wants(next_stamp(room, new[key]), next_stamp(room, file), "next stamp")
        wants(taken, sound(room, new[0])[1], f"pages of the copy by key {key}")
    without = room.place / "without.dat"
    wants(copied(room, file, without).returncode, 0, "exit status of a copy without '--key'")
    wants(without.read_bytes() == new[0].read_bytes(), True, "whether key 0 is meant where none is told")
    for key in (1, 2):
        again = room.place / f"again-{key}.dat"
        wants(copied(room, new[key], again).returncode, 0, "exit status of a copy of the copy")
        wants(again.read_bytes() == new[0].read_bytes(), True, f"whether the copy by key {key} has all that the file has")


def no_such_key(room):
    """A key that the file has not is told before anything is written, and before the new file is looked for."""
    file = loaded(room, 20, FIXED)
    for new in (room.place / "new.dat", file):
        before = new.exists() and new.read_bytes()
        ended = copied(room, file, new, "--key", "3")
        wants((ended.returncode, ended.stdout, ended.stderr), (1, b"", b"cobix: the file has no such key\n"), "a copy by key 3")
        wants(new.exists() and new.read_bytes(), before, "what is there")


def new_file_is_there(room):
    """What has the name of the new file stays as it is: a file, the one that is copied, a folder, a link."""
    file = loaded(room, 20, FIXED)
    before = file.read_bytes()
    other, folder, link, away = (room.files / it for it in ("other.txt", "folder", "link", "away"))
    other.write_text("mine\n")
    folder.mkdir()
    link.symlink_to("other.txt")
    away.symlink_to("nowhere")
    for new in (file, other):
        ended = copied(room, file, new)
        wants((ended.returncode, ended.stdout, ended.stderr), (1, b"", b"cobix: the new file is there already\n"), f"a copy into {new.name}")
    for new in (folder, link, away):
        ended = copied(room, file, new)
        wants((ended.returncode, ended.stderr.split(b"\n")[0]), (4, b"cobix: output"), f"a copy into {new.name}")
        wants(ended.stderr.decode().startswith(f"cobix: output\ncobix: {new.name}: "), True, f"whether its cause is told, {ended.stderr!r}")
    wants((file.read_bytes() == before, other.read_text(), list(folder.iterdir()), link.is_symlink(), away.is_symlink()), (True, "mine\n", [], True, True), "what is there")


def wants_left(room, file, before, new):
    """The file is as it was, and the new one is refused, or absent."""
    wants(file.read_bytes() == before, True, "whether the file is as it was")
    if new.exists():
        told = room.call([room.program, "check", new])
        wants((told.returncode, bool(re.fullmatch(rb"unsound [12]\n", told.stdout))), (1, True), f"the check of what is there of the new file, {told.stdout!r}")


def no_page_is_left(room):
    """The new file needs more pages than it may have."""
    file = loaded(room, 2000, FIXED)
    before, new = file.read_bytes(), room.place / "new.dat"
    ended = copied(room, file, new, "--pages", "16")
    told = b"cobix: output\n  the new file needs more pages than '--pages' gives it\n"
    wants((ended.returncode, ended.stdout, ended.stderr), (4, b"", told), "a copy into 16 pages")
    wants_left(room, file, before, new)
    ended = copied(room, file, new)
    wants((ended.returncode, ended.stderr), (1, b"cobix: the new file is there already\n"), "a copy into what is there of it")
    new.unlink()
    pages = sound(room, file)[1]
    wants(copied(room, file, new, "--pages", str(pages), "--frames", "1").returncode, 0, "exit status of a copy into as many pages as the file has")
    sound(room, new)


def device_is_full(room):
    """A limit of the system on the size of a file is met in the midst of the copy, or kills it; and room is made."""
    file = loaded(room, 2000, FIXED)
    before, new = file.read_bytes(), room.place / "new.dat"

    def limited():
        resource.setrlimit(resource.RLIMIT_FSIZE, (20 * 4096, 20 * 4096))

    words = [room.program, "copy", file, new]
    ended = room.call(words, preexec_fn=limited, restore_signals=False)
    wants((ended.returncode, ended.stdout, ended.stderr), (4, b"", b"cobix: output\ncobix: new.dat: file too large\n"), "a copy behind the limit")
    wants_left(room, file, before, new)
    new.unlink()
    ended = room.call(words, preexec_fn=limited)
    wants((ended.returncode, ended.stdout), (-signal.SIGXFSZ, b""), "a copy that is killed")
    wants(new.exists(), True, "whether a part of the new file is there")
    wants_left(room, file, before, new)
    new.unlink()
    wants(room.call(words).returncode, 0, "exit status where there is room")
    sound(room, new)


def file_is_held(room):
    """A run that changes the file has it alone: nothing is read then, and nothing written. One that reads does not stand in the way."""
    room.made()
    new = room.place / "new.dat"
    held = Held(room.words(deck("OPEN I-O CUST", *added(11), *["READ CUST NEXT"] * 5, "CLOSE CUST")))
    ended = copied(room, room.cust, new)
    wants((ended.returncode, ended.stdout, new.exists()), (4, b"", False), "a copy beside a change")
    wants(ended.stderr.decode().startswith(f"cobix: input\n  {room.cust}: "), True, f"whether its cause is told, {ended.stderr!r}")
    held.lines()
    held = Held(room.words(deck("OPEN INPUT CUST", *["READ CUST NEXT"] * 5, "CLOSE CUST")))
    ended = copied(room, room.cust, new)
    wants((ended.returncode, ended.stderr), (0, b"copied 6 records, 4 pages\n"), "a copy beside a run that reads")
    held.lines()


def what_is_no_file(room):
    """A file that is missing, a folder, a file that is refused, and one that is damaged behind its first page."""
    file = loaded(room, 20, FIXED)
    new, open_gate, damaged = (room.files / it for it in ("new.dat", "open.dat", "damaged.dat"))
    data = file.read_bytes()
    open_gate.write_bytes(b"D" + data[1:])
    heap = max(range(0, len(data), 4096), key=lambda at: data[at : at + 1] == b"H")
    damaged.write_bytes(data[:heap] + b"X" + data[heap + 1 :])
    see = "  'cobix check FILE' tells why, and 'cobix salvage FILE' lists what is left\n"
    for path, status, told in [
        (room.files / "missing", 4, f"cobix: input\n  {room.files / 'missing'}: no such file or folder\n"),
        (room.files, 4, f"cobix: input\n  {room.files}: is no file\n"),
        (open_gate, 1, "cobix: the file is refused\n" + see),
        (room.place / "goods.deck", 1, "cobix: the file is refused\n" + see),
    ]:
        ended = copied(room, path, new)
        wants((ended.returncode, ended.stdout, ended.stderr.decode(), new.exists()), (status, b"", told, False), f"a copy of {path.name}")
    ended = copied(room, damaged, new)
    wants((ended.returncode, ended.stdout, ended.stderr.decode()), (1, b"", "cobix: the file is damaged\n" + see), "a copy of a damaged file")
    wants_left(room, file, data, new)


def where_the_new_file_is(room):
    """The folder of the new file is what stands before its name: the one that the program runs in, where nothing does."""
    file = loaded(room, 20, FIXED)
    new = room.place / "within"
    new.mkdir()
    shutil.copy(file, new / "goods.dat")
    for path in ("a.dat", "./b.dat", "../within/c.dat", str(new / "d.dat")):
        wants(room.call([room.program, "copy", "goods.dat", path], cwd=new).returncode, 0, f"exit status of a copy into {path}")
    wants(sorted(it.name for it in new.iterdir()), ["a.dat", "b.dat", "c.dat", "d.dat", "goods.dat"], "the files")
    wants({it.read_bytes() for it in new.iterdir() if it.name != "goods.dat"} == {(new / "a.dat").read_bytes()}, True, "whether the copies are the same")
    ended = room.call([room.program, "copy", "goods.dat", "missing/e.dat"], cwd=new)
    wants((ended.returncode, ended.stderr), (4, b"cobix: input\n  missing: no such file or folder\n"), "a copy into a folder that is missing")
    ended = room.call([room.program, "copy", "goods.dat", "goods.dat/e.dat"], cwd=new)
    wants((ended.returncode, ended.stderr), (4, b"cobix: input\n  goods.dat: is no folder\n"), "a copy into a file in place of a folder")


def trials():
    for count in (0, 1, 2000):
        for what, text in (("one length", FIXED), ("several lengths", VARYING)):
            yield f"a copy of {count:,} records of {what}", lambda room, count=count, text=text: copy_has_the_same(room, count, text)
    for count in (0, 1, 2000):
        for what, text in (("one length", FIXED), ("several lengths", VARYING)):
            yield f"copies of {count:,} records of {what} by each key", lambda room, count=count, text=text: copy_lies_in_order(room, count, text)
    yield "a copy by a key that is not there", no_such_key
    yield "a copy where the new file is there", new_file_is_there
    yield "a copy of more pages than it may have", no_page_is_left
    yield "a copy on a device that is full", device_is_full
    yield "a copy beside other runs", file_is_held
    yield "a copy of what is no file, or is refused", what_is_no_file
    yield "where a copy is made", where_the_new_file_is
