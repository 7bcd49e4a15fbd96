"""Files that are read: pipes, devices and sockets in their place, paths with bytes that a terminal heeds, and more bytes than a command needs.

`trials()` gives each by its name, as those of edges.py.
"""
import os
import resource
import socket
import subprocess
from pathlib import Path

from edges import Lacking, wants

HERE = Path(__file__).resolve().parent
AT_ONCE = 10  # the seconds in which a command ends that reads nothing
BADLY = (4, b"", b"cobix: input")


def ends(room, *words, **how):
    """The exit status of a command, what it writes, and the first line on standard error."""
    try:
        ended = room.call([room.program, *words], **{"timeout": AT_ONCE, **how})
    except subprocess.TimeoutExpired:
        return "no end"
    return ended.returncode, ended.stdout, ended.stderr.split(b"\n")[0]


def copied(room, name):
    """A file of commands/ in the room."""
    path = room.files / name
    path.write_bytes((HERE / "commands" / name).read_bytes())
    return path


# ---- no plain file


def commands_over(room, path):
    """Each command with a path of a file that it reads."""
    goods = copied(room, "goods.deck")
    yield "run", path, "--folder", room.files
    yield "check", path
    yield "schema", path
    yield "schema", copied(room, "exchanged.dat"), "--deck", path, "--file", "GOODS"
    yield "deck", path
    yield "cobol", path
    yield "list", path
    yield "list", copied(room, "exchanged.dat"), "--as", "csv", "--deck", path, "--file", "GOODS"
    yield "stat", path
    yield "load", path, "--folder", room.files, "--file", "GOODS", copied(room, "goods.txt")
    yield "load", goods, "--folder", room.files, "--file", "GOODS", path


def refused_by_all(room, path):
    for words in commands_over(room, path):
        wants(ends(room, *words), BADLY, f"cobix {words[0]}")


def pipe(room):
    """A pipe into which nobody writes."""
    path = room.place / "pipe"
    os.mkfifo(path)
    refused_by_all(room, path)


def link_to_a_pipe(room):
    os.mkfifo(room.place / "pipe")
    path = room.place / "link"
    path.symlink_to("pipe")
    refused_by_all(room, path)


def endless_device(room):
    if not Path("/dev/zero").is_char_device():
        raise Lacking("/dev/zero")
    refused_by_all(room, "/dev/zero")


def local_socket(room):
    path = room.place / "socket"
    with socket.socket(socket.AF_UNIX) as it:
        it.bind(str(path))
        refused_by_all(room, path)


def input_by_its_path(room):
    """Standard input is a hyphen: where it is a pipe, its path is that of a pipe."""
    if not Path("/dev/stdin").exists():
        raise Lacking("/dev/stdin")
    deck = copied(room, "goods.deck").read_bytes()
    wants(ends(room, "deck", "/dev/stdin", stdin=None, input=deck), BADLY, "cobix deck /dev/stdin")
    wants(ends(room, "deck", "-", stdin=None, input=deck)[0], 0, "exit status of cobix deck -")


def link_to_a_file(room):
    """A link to a plain file is followed."""
    copied(room, "exchanged.dat")
    path = room.place / "link"
    path.symlink_to("files/exchanged.dat")
    wants(ends(room, "check", path), (1, b"unsound 6\n", b""), "cobix check")


# ---- names of files


def names_as_they_are_shown(room):
    """Bytes of a name that end a line, or that a terminal heeds, are shown as those of records."""
    names = ["a\nb.dat", "\x1b[2J.dat", "c\\d.dat", "\u00e9.dat"]
    shown = [rb"a\0ab.dat", rb"\1b[2J.dat", rb"c\5cd.dat", rb"\c3\a9.dat"]
    sound = copied(room, "lost-page.dat").read_bytes()
    for name in names:
        (room.files / name).write_bytes(sound)
    wants(ends(room, "check", *names, cwd=room.files), (1, b"".join(it + b": unsound 9\n" for it in shown), b""), "cobix check")


def several_of_which_one_cannot_be_read(room):
    """The others are checked, and the exit status is the worst."""
    for name in ("exchanged.dat", "lost-page.dat"):
        copied(room, name)
    os.mkfifo(room.files / "pipe")
    (room.files / "in\nner").mkdir()
    lines = [b"exchanged.dat: unsound 6", b"pipe: cannot be read: is no file", rb"in\0aner: cannot be read: is no file", b"lost-page.dat: unsound 9"]
    found = ends(room, "check", "exchanged.dat", "pipe", "in\nner", "lost-page.dat", cwd=room.files)
    wants(found, (4, b"".join(it + b"\n" for it in lines), b"cobix: input"), "cobix check")


# ---- more bytes than a command needs


def limited():
    """A gigabyte of memory."""
    resource.setrlimit(resource.RLIMIT_AS, (1 << 30, 1 << 30))


def lengthened(path):
    """Zeros to three gigabytes, which take no room on the disk."""
    os.truncate(path, 3 << 30)


def zeros_without_end(room):
    """A long file of zeros is refused by its first page."""
    path = room.files / "zeros.dat"
    path.write_bytes(b"")
    lengthened(path)
    for command in ("list", "stat", "schema"):
        wants(ends(room, command, path, preexec_fn=limited), (1, b"", b"unsound 2" if command != "schema" else b"unsound 3"), f"cobix {command}")


def bytes_behind_a_file(room):
    """Bytes behind the pages that the first page counts are no part of a file."""
    room.made()
    told = {command: ends(room, command, room.cust) for command in ("list", "stat", "check")}
    wants([it[0] for it in told.values()], [0, 0, 0], "exit statuses without them")
    lengthened(room.cust)
    for command, wanted in told.items():
        wants(ends(room, command, room.cust, preexec_fn=limited), wanted, f"cobix {command}")


def line_without_end(room):
    """A text with a line that is longer than that of any record is refused as it is met; the records before it are loaded."""
    deck = copied(room, "goods.deck")
    text = copied(room, "goods.txt").read_bytes()
    words = ["load", deck, "--folder", room.files, "--file", "GOODS", "-"]
    with open("/dev/zero", "rb") as zeros:
        wants(ends(room, *words, stdin=zeros, preexec_fn=limited), (1, b"line 1: no record of this file\n", b"line 1: no [ at its beginning"), "cobix load of zeros")
    (room.files / "goods.dat").unlink()
    path = room.files / "long.txt"
    path.write_bytes(text)
    lengthened(path)
    words[-1] = path
    line = text.count(b"\n") + 1
    wants(ends(room, *words, preexec_fn=limited), (1, f"line {line}: no record of this file\n".encode(), f"line {line}: no [ at its beginning".encode()), "cobix load of lines and zeros")
    wants(ends(room, "list", room.files / "goods.dat")[1], text, "the list of what was loaded")


# ---- all of them


def trials():
    yield "a pipe in place of each file that is read", pipe
    yield "a link to a pipe in place of each file that is read", link_to_a_pipe
    yield "a device in place of each file that is read", endless_device
    yield "a socket in place of each file that is read", local_socket
    yield "standard input by its path", input_by_its_path
    yield "a link to a plain file", link_to_a_file
    yield "names of files with bytes that a terminal heeds", names_as_they_are_shown
    yield "several files of which two cannot be read", several_of_which_one_cannot_be_read
    yield "a long file of zeros", zeros_without_end
    yield "a file with many bytes behind it", bytes_behind_a_file
    yield "a text with a line that has no end", line_without_end
