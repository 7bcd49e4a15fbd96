"""Loads of new files that are built: with memory for the keys of all records, and with less.

`trials()` gives each by its name, as those of edges.py.
"""
from copies import FIXED
from edges import wants

MANY = 30_000


def rising_lines(count):
    """The lines of so many records in the order of their prime values, and in no order of the other keys."""
    return "".join(f"[{n:06}{7919 * n % 999983:06}K{n % 7}{'GOODS ' * 10}]\n" for n in range(1, count + 1))


def loaded(room, lines, folder, *options):
    """The file of a new load."""
    into = room.place / folder
    into.mkdir()
    path = room.place / "goods.deck"
    path.write_bytes(FIXED)
    ended = room.call([room.program, "load", path, "--folder", into, "--file", "GOODS", lines, *options])
    wants((ended.returncode, ended.stdout), (0, f"loaded {MANY}\n".encode()), f"the load into {folder}")
    return (into / "goods.dat").read_bytes()


def above_its_memory(room):
    """A load whose keys do not fit in the memory that is granted is built all the same: the file is the one that is built with more, byte for byte. One that is written by WRITEs has more pages."""
    lines = room.place / "lines"
    lines.write_text(rising_lines(MANY))
    built = loaded(room, lines, "built")
    wants(loaded(room, lines, "batches", "--memory", "1") == built, True, "whether the file is the same")
    wants(len(loaded(room, lines, "written", "--memory", "0")) > len(built), True, "whether a file of WRITEs has more pages")


def trials():
    yield f"a load of {MANY:,} records above its memory", above_its_memory
