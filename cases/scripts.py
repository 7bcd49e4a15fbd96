"""The scripts of examples and what share has: the check of a folder, a night, file(1), the completion for bash and the manual page.

`trials()` gives each by its name, as those of edges.py.
"""
import os
import re
import resource
import shutil
from pathlib import Path

from edges import MANY, NEW, Held, Lacking, READS, added, deck, wants

TOP = Path(__file__).resolve().parent.parent
CHECK_FOLDER = TOP / "examples" / "check-folder"
NIGHT = TOP / "examples" / "night"
MAGIC = TOP / "share" / "file" / "cobix"
COMPLETION = TOP / "share" / "bash-completion" / "completions" / "cobix"
MANUAL = TOP / "share" / "man" / "man1" / "cobix.1"
PAGE = 4096
LINES = 5  # the most of a status that a night reports


# ---- the check of a folder


def checked(room, *names, program=None, folder=None):
    """The exit status of the check of a folder, its lines, and what it tells on standard error."""
    ended = room.call([CHECK_FOLDER, program or room.program, folder or room.files, *names])
    return ended.returncode, ended.stdout.decode().splitlines(), ended.stderr.decode()


def counts(checked, unsound, other):
    return f"checked {checked}, unsound {unsound}, not of cobix {other}"


def checked_folder(room):
    """The folders within it, files of others, and each exit status."""
    wants(checked(room), (4, [counts(0, 0, 0)], ""), "an empty folder")
    (room.files / "note.txt").write_text("COBIXIF")
    wants(checked(room), (4, [counts(0, 0, 1)], ""), "a folder of others")
    room.made()
    within = room.files / "within" / "a folder"
    within.mkdir(parents=True)
    copy = within / "a copy.dat"
    shutil.copy(room.cust, copy)
    (room.files / "link.dat").symlink_to(room.cust)
    wants(checked(room), (0, [counts(2, 0, 1)], ""), "two sound files")
    copy.write_bytes(b"D" + copy.read_bytes()[1:])
    wants(checked(room), (1, [f"{copy}: unsound 2", counts(2, 1, 1)], ""), "an unsound file")
    missing = room.place / "missing"
    wants(checked(room, folder=missing), (4, [], f"check-folder: {missing} is no folder\n"), "no folder")
    wants(checked(room, program=missing), (4, [], f"check-folder: {missing} is no program\n"), "no program")
    wants(room.call([CHECK_FOLDER, room.program]).returncode, 3, "exit status without a folder")


def folder_by_a_link(room):
    room.made()
    link = room.place / "link"
    link.symlink_to(room.files)
    wants(checked(room, "cust.dat", folder=link), (0, [counts(1, 0, 0)], ""), "check-folder")


HALF_MADE = [
    ("the first byte alone", b"D", "1"),
    ("zeros behind it", b"D" + bytes(PAGE - 1), "2"),
    ("its other pages, and zeros for the first", b"D" + bytes(PAGE - 1) + b"H" * PAGE, "2"),
    ("its first page", b"DCOBIXIF" + bytes(PAGE), "2"),
    ("a part of its first page", b"DCOBIXIF", "1"),
]
OF_OTHERS = [b"", b"Dear Sir", b"D\0\0\0\0\0\0 ", b"COBIXIF", b"C" + bytes(PAGE), b"XCOBIXI"]


def half_made_files(room):
    """What a run leaves that was stopped while it made a file is told, and files of others are not."""
    room.made()
    file = room.files / "half.dat"
    for what, data, reason in HALF_MADE:
        file.write_bytes(data)
        wants(checked(room), (1, [f"{file}: unsound {reason}", counts(2, 1, 0)], ""), what)
    for data in OF_OTHERS:
        file.write_bytes(data)
        wants(checked(room), (0, [counts(1, 0, 1)], ""), f"a file of others, {data[:9]!r}")


def stopped_while_it_made_a_file(room):
    """A run is killed while it makes a file."""
    making = Held(room.words(deck("OPEN OUTPUT CUST", *added(*range(1, 401)), "CLOSE CUST")))
    making.process.kill()
    making.process.wait()
    os.close(making.end)
    wants(room.cust.read_bytes()[:1], b"D", "the first byte of the file")
    status, lines, errors = checked(room)
    wants((status, lines[-1], errors), (1, counts(1, 1, 0), ""), "check-folder")
    wants(len(lines) == 2 and bool(re.fullmatch(f"{room.cust}: unsound [12]", lines[0])), True, f"the file is told, not {lines}")


def named_files(room):
    """A file that is named has to be there, and to be sound, whatever its bytes are."""
    room.made()
    twin = room.files / "twin.dat"
    wants(checked(room, "cust.dat"), (0, [counts(1, 0, 0)], ""), "a file that is there")
    missing = (1, [f"{twin}: no such file", counts(1, 0, 0) + ", missing 1"], "")
    wants(checked(room, "cust.dat", "twin.dat"), missing, "a file that is not there")
    twin.symlink_to(room.cust)
    wants(checked(room, "cust.dat", "twin.dat"), missing, "a link")
    twin.unlink()
    for data, reason in [(b"", 1), (b"Dear Sir", 1), (bytes(PAGE), 2)]:
        twin.write_bytes(data)
        wants(checked(room), (0, [counts(1, 0, 1)], ""), f"{data[:8]!r} without a name")
        told = (1, [f"{twin}: unsound {reason}", counts(2, 1, 0)], "")
        wants(checked(room, "cust.dat", "twin.dat"), told, f"{data[:8]!r} by its name")
    wants(checked(room, "within/cust.dat")[0], 1, "exit status for a file of a folder that is not there")


def folder_with_a_file_in_use(room):
    """A file that another run is changing cannot be checked."""
    room.made()
    first = Held(room.words(deck("OPEN I-O CUST", *added(11), *READS, "CLOSE CUST")))
    status, lines, _ = checked(room)
    first.lines()
    wants((status, lines[-1]), (4, counts(0, 0, 0)), "check-folder")


def told_by_file(room):
    """What file(1) says by the line of share."""
    if not shutil.which("file"):
        raise Lacking("the program file")
    room.made()

    def said(data):
        path = room.place / "data"
        path.write_bytes(data)
        return room.call(["file", "-b", "-m", MAGIC, path]).stdout.decode().strip()

    whole = room.cust.read_bytes()
    head = "indexed file of cobix"
    wants(said(whole), f"{head}, closed, record length 1000, keys 1, records 5, pages 4", "a file")
    opened = f"{head}, not closed after a change, record length 1000, keys 1, records 5, pages 4"
    wants(said(b"D" + whole[1:]), opened, "a file that was not closed")
    for what, data, _ in HALF_MADE[1:3]:
        wants(said(data), f"{head}, not finished when it was made", what)
    for data in OF_OTHERS:
        wants(head in said(data), False, f"whether {data[:9]!r} is told as one of cobix")


# ---- the completion for bash, and the manual page


COMPLETIONS = [
    (["ex"], ["explain"]),
    (["explain", ""], ["status", "fault", "unsound", "--help"]),
    (["explain", "st"], ["status"]),
    (["explain", "status", "9"], ["90", "91", "92", "95"]),
    (["explain", "fault", ""], ["1", "2", "3", "4", "5", "6", "7"]),
    (["explain", "unsound", "9"], ["9"]),
    (["explain", "status", "30", ""], []),
    (["list", "cust.dat", "--as", ""], ["text", "csv", "json"]),
    (["load", "--as", "c"], ["csv"]),
    (["list", "cu"], ["cust.dat"]),
    (["run", "--fr"], ["--frames"]),
]


def completed(room):
    """What bash offers behind some words."""
    if not shutil.which("bash"):
        raise Lacking("bash")
    room.made()
    for words, wanted in COMPLETIONS:
        script = 'source "$1"; shift; COMP_WORDS=(cobix "$@"); COMP_CWORD=$#; _cobix; printf "%s\\n" "${COMPREPLY[@]}"'
        ended = room.call(["bash", "-c", script, "bash", COMPLETION, *words], cwd=room.files)
        wants((ended.stdout.decode().split(), ended.stderr), (wanted, b""), f"behind {words}")


def manual_page(room):
    """The page is without faults, and has its sections and the entries of each command as help has them."""
    if not shutil.which("groff"):
        raise Lacking("groff")
    ended = room.call(["groff", "-man", "-Tascii", "-P-c", "-rLL=1000n", "-ww", MANUAL])
    wants((ended.returncode, ended.stderr), (0, b""), "exit status and standard error of groff")
    text = re.sub(r".\x08", "", ended.stdout.decode())
    lines = [" ".join(it.split()) for it in text.splitlines()]
    sections = ["NAME", "SYNOPSIS", "DESCRIPTION", "COMMANDS", "FILES", "EXAMPLES", "NIGHT", "SEE ALSO"]
    wants([it for it in text.splitlines() if it in sections], sections, "the sections")
    wants("level N pages N entries N fill N% [####    ]" in text, True, "whether the entry of a level of a tree is whole")
    wants("a level of it, from the root down to the leaves, level 0; how full its pages are, and a bar of 20 characters" in lines, True, "its text")


# ---- a night


class Night:
    """A night over the files of a room, by a deck."""

    def __init__(self, room, text, folder=None, **how):
        room.decks += 1
        self.deck = room.place / f"deck-{room.decks}"
        self.deck.write_bytes(text)
        self.copies = room.place / "copies"
        words = [NIGHT, room.program, self.deck, folder or room.files, self.copies]
        before = self.nights()
        ended = room.call(words, **how)
        self.ended = ended.returncode
        self.report, self.errors = ended.stdout.decode().splitlines(), ended.stderr.decode()
        self.made = next(iter(self.nights() - before), None)

    def nights(self):
        return set(self.copies.iterdir()) if self.copies.is_dir() else set()

    def was_not_run(self, told):
        wants((self.ended, self.report), (4, []), "exit status and report")
        wants(self.errors.splitlines()[0][:len(told)], told, "standard error")
        wants(bool(self.made and (self.made / "transcript").exists()), False, "whether there is a transcript")

    def has(self, name, files):
        """A copy is a folder that has these files, with these bytes."""
        copy = self.made / name
        wants(copy.is_symlink(), False, f"whether {name} is a link")
        found = {it.name: it.read_bytes() for it in copy.iterdir() if it.is_file() and not it.is_symlink()}
        wants(sorted(found), sorted(files), f"the files of {name}")
        wants(found == files, True, f"the bytes of {name}")


ONE_MORE = deck("OPEN I-O CUST", *added(11), "CLOSE CUST")
WELL = [counts(1, 0, 0), "all went well"]


def night_that_goes_well(room, folder=None):
    """The copies before and after, and the report."""
    before = room.made()
    night = Night(room, ONE_MORE, folder)
    wants((night.ended, night.report, night.errors), (0, WELL, ""), "exit status, report and standard error")
    wants(room.cust.read_bytes() != before, True, "whether the file was changed")
    night.has("before", {"cust.dat": before})
    night.has("after", {"cust.dat": room.cust.read_bytes()})
    wants((night.made / "transcript").read_text().splitlines()[1], "WRITE CUST 00", "the transcript")
    room.wants_sound(6)


def night_by_a_link(room):
    """DIR is a symbolic link: the copies are folders, and the copy takes the place of what is harmed later."""
    link = room.place / "link"
    link.symlink_to(room.files)
    night_that_goes_well(room, link)
    room.cust.write_bytes(b"D")
    night = Night(room, ONE_MORE, link)
    night.was_not_run(f"night: nothing was run: {link}/cust.dat: unsound 1")
    copy = next(room.place.glob("copies/*/after/cust.dat"))
    shutil.copy(copy, room.cust)
    room.wants_sound(6)


def other_command(room, name, script):
    """Surroundings in which a command is another script."""
    place = room.place / "bin"
    place.mkdir(exist_ok=True)
    (place / name).write_text("#!/bin/sh\n" + script)
    (place / name).chmod(0o755)
    return {**os.environ, "PATH": f"{place}:{os.environ['PATH']}"}


COPIES = {
    "a copy that is empty": ":\n",
    "a copy that is a link": 'for it; do last=$it; done\nln -s "$2"/* "$last"\n',
    "a copy that is cut": 'for it; do last=$it; done\n/bin/cp "$@" && : >"$last/cust.dat"\n',
    "a copy with another byte": 'for it; do last=$it; done\n/bin/cp "$@" && printf X | dd of="$last/cust.dat" conv=notrunc bs=1 seek=5000\n',
}


def night_without_copies(room):
    """A copy that is not whole, though cp says that it is: before the run nothing is run, and after it that is told."""
    before = room.made()
    for what, script in COPIES.items():
        night = Night(room, ONE_MORE, env=other_command(room, "cp", script))
        wants((what, night.ended), (what, 4), "exit status")
        wants(f"night: nothing was run: {room.files} could not be copied" in night.errors, True, f"{what}: what is told, {night.errors}")
        wants(room.cust.read_bytes() == before, True, f"{what}: whether the file is as it was")
        shutil.rmtree(night.copies)
    later = f'[ -e "{room.place}/copied" ] && exit 0\n: >"{room.place}/copied"\nexec /bin/cp "$@"\n'
    night = Night(room, ONE_MORE, env=other_command(room, "cp", later))
    wants(night.ended, 1, "exit status where the second copy is none")
    wants(night.report[-2:], [f"{room.files} could not be copied", f"something went wrong: look at the files in {night.made}"], "the report")
    night.has("before", {"cust.dat": before})


def night_of_no_file(room):
    """What cannot be run: a file that is not sound, and one that another run is changing."""
    room.made()
    held = Held(room.words(deck("OPEN I-O CUST", *added(12), *READS, "CLOSE CUST")))
    night = Night(room, ONE_MORE)
    held.lines()
    night.was_not_run(f"night: nothing was run: {room.cust}: cobix: input")
    room.wants_sound(6)
    room.cust.write_bytes(b"D" + bytes(PAGE))
    night = Night(room, ONE_MORE)
    night.was_not_run(f"night: nothing was run: {room.cust}: unsound 2")


def night_at_a_limit(room):
    """A limit on the size of files ends no run: it is met as a full disk. The report has five lines of a status at most."""

    def limited():
        resource.setrlimit(resource.RLIMIT_FSIZE, (200_000, 200_000))

    text = MANY.replace(b'"cust.dat"', b'"many.dat"')
    room.made()
    night = Night(room, text, preexec_fn=limited)
    wants(night.ended, 1, "exit status")
    told = (night.made / "transcript").read_text().splitlines()
    last = {it: sum(line.endswith(f" {it}") for line in told) for it in ("30", "92")}
    wants((last["30"], last["92"] > LINES), (2, True), "the lines of 30 and of 92 in the transcript")
    shown = {it: [line for line in night.report if re.fullmatch(rf"\d+:\w+ CUST {it}", line)] for it in last}
    wants((len(shown["30"]), len(shown["92"])), (2, LINES), "the lines of 30 and of 92 in the report")
    more = [f"and {last['92'] - LINES} more lines with 92"]
    wants([it for it in night.report if it.startswith("and ")], more, "how many more there are")
    number, line = shown["30"][0].split(":")
    wants(told[int(number) - 1], line, "the first line of 30")
    wants((night.made / "after").exists(), False, "whether there is a copy of what went wrong")


def night_whose_deck_is_refused(room):
    before = room.made()
    night = Night(room, NEW.replace(b"PROCEDURE", b"PROCEDURES"))
    wants((night.ended, night.report[0]), (1, "the run ended with 2"), "exit status and report")
    wants(bool(re.fullmatch(r"cobix: line \d+: fault \d", night.report[1])), True, f"the fault is told: {night.report[1]}")
    wants(room.cust.read_bytes() == before, True, "whether the file is as it was")


def trials():
    yield "the check of a folder", checked_folder
    yield "the check of a folder by a symbolic link", folder_by_a_link
    yield "the check of a folder with a half-made file", half_made_files
    yield "the check of a folder in which a run was killed", stopped_while_it_made_a_file
    yield "the check of a folder with files that must be there", named_files
    yield "the check of a folder with a file in use", folder_with_a_file_in_use
    yield "what file(1) tells", told_by_file
    yield "the completion for bash", completed
    yield "the manual page", manual_page
    yield "a night that goes well", night_that_goes_well
    yield "a night over a symbolic link", night_by_a_link
    yield "a night whose copies are none", night_without_copies
    yield "a night over files that are not sound, or in use", night_of_no_file
    yield "a night with a limit on the size of files", night_at_a_limit
    yield "a night whose deck is refused", night_whose_deck_is_refused
