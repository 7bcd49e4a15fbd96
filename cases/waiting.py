"""Commands that wait for a file which another run has: `--wait SECONDS`.

`trials()` gives each by its name, as those of edges.py.
"""
import subprocess
import time

from edges import LOOK, LOOKED, READS, SECONDS, Held, added, deck, delivered, record, wants
from sessions import CLOSE, DONE, I_O, OPEN, describes, performs, told

WAIT = ["--wait", "5"]
CHANGE = deck("OPEN I-O CUST", *added(12), "CLOSE CUST")
CHANGED = ["OPEN I-O CUST 00", "WRITE CUST 00", "CLOSE CUST 00"]
KEYS = ((0, 6, False),)  # of the file that a room makes


def begun(words, given=b""):
    """A command that is at work."""
    command = subprocess.Popen(words, stdin=subprocess.PIPE, stdout=subprocess.PIPE, stderr=subprocess.PIPE)
    command.stdin.write(given)
    command.stdin.close()
    command.stdin = None
    return command


def wants_ended(command, written, what):
    """A command ends with 0, and has written this."""
    out, err = command.communicate(timeout=SECONDS)
    wants((command.returncode, err, out), (0, b"", written), f"exit status, standard error and standard output of {what}")


def lines(*those):
    return "".join(f"{it}\n" for it in those).encode()


def release(first, *commands):
    """The commands wait for a second, as long as the first run has the file; then that run ends, and this is its transcript."""
    time.sleep(1)
    wants([it.poll() for it in commands], [None] * len(commands), "whether the commands wait")
    return first.lines()


def readers_beside_a_change(room):
    """A run, a session, a check and a list have the file once the run that changed it has ended."""
    room.made()
    first = Held(room.words(deck("OPEN I-O CUST", *added(11), *READS, "CLOSE CUST")))
    run = begun(room.words(LOOK, WAIT))
    requests = describes(0, "cust.dat", 1000, 1000, KEYS) + performs(0, OPEN, I_O) + performs(0, CLOSE)
    session = begun([room.program, "serve", "--folder", room.files, *WAIT], requests)
    check = begun([room.program, "check", room.cust, *WAIT])
    listed = begun([room.program, "list", room.cust, *WAIT])
    wants(release(first, run, session, check, listed)[-1], "CLOSE CUST 00", "the first run")
    wants_ended(run, lines(*LOOKED), "the run")
    wants_ended(session, DONE + told("00") + told("00"), "the session")
    wants_ended(check, lines("sound records 6 pages 4"), "the check")
    wants_ended(listed, lines(*(f"[{record(it)}]" for it in (1, 2, 3, 4, 5, 11))), "the list")


def change_beside_a_reader(room):
    """The first change waits until the run that reads has ended."""
    room.made()
    first = Held(room.words(deck("OPEN INPUT CUST", *READS, "CLOSE CUST")))
    change = begun(room.words(CHANGE, WAIT))
    wants(release(first, change)[-1], "CLOSE CUST 00", "the first run")
    wants_ended(change, lines(*CHANGED), "the run that changes the file")
    room.wants_sound(6)


def two_that_have_read_and_change(room):
    """Of two runs that have read the file and wait to change it one does so. The other changes nothing of what it has not read."""
    room.made()
    first = Held(room.words(deck("OPEN I-O CUST", *READS, *added(11), "CLOSE CUST"), WAIT))
    second = begun(room.words(CHANGE, WAIT))
    wants(release(first, second)[-2:], ["WRITE CUST 00", "CLOSE CUST 00"], "the first run")
    out, err = second.communicate(timeout=SECONDS)
    wants(out, lines("OPEN I-O CUST 00", "WRITE CUST 30", "CLOSE CUST 30"), "the second run")
    wants(err, b"cobix: cust.dat: another run changed it (line 2 of the transcript)\n", "the cause")
    room.wants_sound(6)


def seconds_that_are_over(room):
    """A run waits so many seconds, and no longer: then it is answered as one that does not wait."""
    room.made()
    first = Held(room.words(deck("OPEN I-O CUST", *added(11), *READS, "CLOSE CUST")))
    began = time.monotonic()
    ended = room.call(room.words(deck("OPEN I-O CUST"), ["--wait", "1"]))
    waited = time.monotonic() - began
    cause = b"cobix: cust.dat: another run has it (line 1 of the transcript)\n"
    wants((ended.stdout, ended.stderr), (b"OPEN I-O CUST 30\n", cause), "standard output and standard error")
    wants(1 <= waited < SECONDS / 2, True, f"whether {waited:.1f} seconds are at least one, and not many")
    wants(first.lines()[-2:], [*delivered("READ NEXT", 5), "CLOSE CUST 00"], "the first run")


def trials():
    yield "readers that wait for a change", readers_beside_a_change
    yield "a change that waits for a reader", change_beside_a_reader
    yield "two that have read a file and wait to change it", two_that_have_read_and_change
    yield "a wait whose seconds are over", seconds_that_are_over
