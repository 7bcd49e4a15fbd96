"""Sessions of `cobix serve`: requests as frames, and the answers to them, byte for byte (docs/LIBRARY.md).

`trials()` gives each by its name, as those of edges.py.
"""
import contextlib
import socket
import subprocess

from edges import SECONDS, wants

DYNAMIC = 2
OPEN, CLOSE, READ_NEXT, READ, START, WRITE, REWRITE, DELETE = range(8)
INPUT, OUTPUT, I_O = 0, 1, 2
PRIME, BY_NAME = (0, 4, False), (4, 6, True)


# ---- frames


def frame(*parts):
    body = b"".join(bytes([it]) if isinstance(it, int) else it for it in parts)
    return len(body).to_bytes(2, "big") + body


def two(number):
    return number.to_bytes(2, "big")


def describes(number, name, least=16, greatest=16, keys=(PRIME, BY_NAME)):
    rows = b"".join(two(offset) + two(length) + bytes([duplicates]) for offset, length, duplicates in keys)
    return frame(1, number, DYNAMIC, 0, two(least), two(greatest), len(keys), rows, name.encode())


def performs(number, verb, operand=0, key=0, part=0, length=0, area=""):
    return frame(2, number, verb, operand, key, two(part), two(length), area.encode())


def writes(number, area):
    return performs(number, WRITE, length=len(area), area=area)


def releases(number):
    return frame(3, number)


DONE = frame(1)


def refused(why):
    return frame(0, why)


def told(status, record=""):
    return frame(2, status.encode(), record.encode())


# ---- sessions

ADAMS, SMITH, SVEN = "0001ADAMS OSLO  ", "0002SMITH BERGEN", "0003SMITH TROMSO"


def serves(room, exchanges, rest=b"", status=0, errors=b""):
    """Requests with their answers, in a session whose input ends in `rest`."""
    asked = b"".join(request for request, _ in exchanges) + rest
    words = [room.program, "serve", "--folder", room.files]
    ended = subprocess.run(words, input=asked, capture_output=True, timeout=SECONDS)
    wants(ended.stdout, b"".join(answer for _, answer in exchanges), "the answers")
    wants((ended.returncode, ended.stderr), (status, errors), "exit status and standard error")


BEGUN = [(describes(0, "cust.dat"), DONE), (performs(0, OPEN, OUTPUT), told("00"))]
LISTED = [(describes(0, "cust.dat"), DONE), (performs(0, OPEN, INPUT), told("00"))]


def written_and_read(room):
    serves(room, [
        *BEGUN,
        (writes(0, ADAMS), told("00")),
        (writes(0, SMITH), told("00")),
        (writes(0, SVEN), told("02")),
        (writes(0, SMITH), told("22")),
        (performs(0, CLOSE), told("00")),
        (performs(0, OPEN, I_O), told("00")),
        (performs(0, READ_NEXT), told("00", ADAMS)),
        (performs(0, READ, key=1, area="0000SMITH "), told("02", SMITH)),
        (performs(0, READ_NEXT), told("00", SVEN)),
        (performs(0, READ_NEXT), told("10")),
        (performs(0, START, operand=1, key=0, part=4, area="0001"), told("00")),
        (performs(0, READ_NEXT), told("00", SMITH)),
        (performs(0, REWRITE, length=16, area="0002ROTH  BERGEN"), told("00")),
        (performs(0, DELETE, area="0001"), told("00")),
        (performs(0, READ, area="0001"), told("23")),
        (performs(0, CLOSE, 1), told("00")),
        (performs(0, OPEN, INPUT), told("38")),
        (releases(0), DONE),
    ])
    room.wants_sound(2)


def closed_at_the_end(room):
    serves(room, [*BEGUN, (writes(0, ADAMS), told("00"))])
    room.wants_sound(1)
    serves(room, [*LISTED, (performs(0, READ_NEXT), told("00", ADAMS))])


def cut_frame(room):
    for rest in (b"\0", b"\0\5", b"\0\5\2\0\5\0"):
        serves(room, [*BEGUN, (writes(0, ADAMS), told("00"))], rest)
        room.wants_sound(1)


def length_past_the_limit(room):
    serves(room, [*BEGUN, (writes(0, ADAMS), told("00")), (two(8193), refused(2))], writes(0, SMITH))
    room.wants_sound(1)


def no_requests(room):
    long = performs(0, READ_NEXT, area=ADAMS + " ")
    none = [frame(), frame(9), frame(2, 0), frame(3, 0, 0), performs(0, READ_NEXT, 1), performs(0, 8), long]
    serves(room, [*BEGUN, *((it, refused(1)) for it in none), (writes(0, ADAMS), told("00"))])
    room.wants_sound(1)


def refusals(room):
    serves(room, [
        (performs(0, READ_NEXT), refused(3)),
        (releases(7), refused(3)),
        (describes(64, "cust.dat"), refused(3)),
        (describes(0, "../cust.dat"), refused(4)),
        (describes(0, "cust.dat", least=17), refused(4)),
        (describes(0, "cust.dat", keys=[(0, 17, False)]), refused(4)),
        *BEGUN,
        (describes(0, "twin.dat"), refused(3)),
        (describes(1, "cust.dat"), refused(5)),
        (releases(0), refused(6)),
        (performs(0, READ, key=2), refused(8)),
        (performs(0, CLOSE), told("00")),
        (releases(0), DONE),
        (describes(63, "cust.dat"), DONE),
    ])
    room.wants_sound(0)


def first_of_several_reasons(room):
    """A frame that is none of the requests is told so before anything else; then its number, its key and its bytes are looked at."""
    nine, flag = performs(7, 9), performs(7, CLOSE, operand=2)
    wants(nine, bytes.fromhex("0009 02 07 09 000000000000"), "a verb 9 on a file of no number")
    long = ADAMS + " "
    serves(room, [
        (nine, refused(1)),
        (flag, refused(1)),
        (performs(7, READ, key=2, area=long), refused(3)),
        (describes(64, "../cust.dat", least=17), refused(3)),
        (describes(64, "cust.dat", keys=[(0, 4, 2)]), refused(1)),
        *BEGUN,
        (performs(0, READ, key=2, area=long), refused(8)),
        (performs(0, READ, key=0, area=long), refused(1)),
        (describes(0, "../cust.dat"), refused(3)),
        (describes(1, "cust.dat", least=17), refused(4)),
        (frame(3, 64, 0), refused(1)),
    ])
    room.wants_sound(0)


def varying_records(room):
    described = describes(0, "cust.dat", least=10)
    serves(room, [(described, DONE), BEGUN[1], (writes(0, ADAMS[:12]), told("00")), (writes(0, SMITH[:9]), told("44"))])
    serves(room, [(described, DONE), LISTED[1], (performs(0, READ_NEXT), told("00", ADAMS[:12]))])
    serves(room, [(LISTED[0][0], DONE), (performs(0, OPEN, INPUT), told("39"))])


def two_files(room):
    serves(room, [
        *BEGUN,
        (describes(1, "twin.dat"), DONE),
        (performs(1, OPEN, OUTPUT), told("00")),
        (writes(0, ADAMS), told("00")),
        (writes(1, ADAMS), told("00")),
        (writes(1, SMITH), told("00")),
        (performs(0, CLOSE), told("00")),
        (performs(0, OPEN, INPUT), told("00")),
        (performs(0, READ_NEXT), told("00", ADAMS)),
        (writes(1, SVEN), told("02")),
        (performs(0, READ_NEXT), told("10")),
    ])
    room.wants_sound(1)
    wants(room.check(room.files / "twin.dat").stdout[:16], b"sound records 3 ", "cobix check")


def described_again(room):
    """A file that was released is found as it was left, under any number, and no other file has changed meanwhile."""
    serves(room, [
        *BEGUN,
        (describes(1, "twin.dat"), DONE),
        (performs(1, OPEN, OUTPUT), told("00")),
        (writes(0, ADAMS), told("00")),
        (writes(1, SMITH), told("00")),
        (performs(0, CLOSE), told("00")),
        (releases(0), DONE),
        (writes(1, SVEN), told("02")),
        (describes(2, "cust.dat"), DONE),
        (describes(0, "third.dat"), DONE),
        (performs(2, OPEN, I_O), told("00")),
        (performs(2, READ_NEXT), told("00", ADAMS)),
        (writes(2, SMITH), told("00")),
        (performs(2, CLOSE, 1), told("00")),
        (performs(2, OPEN, INPUT), told("38")),
        (releases(2), DONE),
        (describes(3, "cust.dat"), DONE),
        (performs(3, OPEN, INPUT), told("00")),
        (performs(3, READ_NEXT), told("00", ADAMS)),
        (performs(3, READ_NEXT), told("00", SMITH)),
        (performs(3, READ_NEXT), told("10")),
        (performs(0, OPEN, INPUT), told("35")),
    ])
    room.wants_sound(2)
    wants(room.check(room.files / "twin.dat").stdout[:16], b"sound records 2 ", "cobix check")


def answers_on_a_full_device(room):
    words = [room.program, "serve", "--folder", room.files]
    with open("/dev/full", "wb") as full:
        ended = subprocess.run(words, input=BEGUN[0][0] + BEGUN[1][0], stdout=full, stderr=subprocess.PIPE, timeout=SECONDS)
    told = b"cobix: output\n  standard output: no space left on device\n"
    wants((ended.returncode, ended.stderr), (4, told), "exit status and standard error")
    wants(list(room.files.iterdir()), [], "the files")


# ---- when answers are written


@contextlib.contextmanager
def client(room, status=0, first_error=None):
    """Gives two functions: one sends bytes to a session, the other takes what one write of the session had."""
    ours, theirs = socket.socketpair(socket.AF_UNIX, socket.SOCK_SEQPACKET)
    ours.settimeout(SECONDS)
    words = [room.program, "serve", "--folder", room.files]
    with ours, subprocess.Popen(words, stdin=subprocess.PIPE, stdout=theirs, stderr=subprocess.PIPE, bufsize=0) as session:
        theirs.close()
        yield session.stdin.write, lambda: ours.recv(1 << 17)
        session.stdin.close()
        errors = session.stderr.read()
    wants(session.returncode, status, "exit status")
    if first_error is not None:
        wants(errors.splitlines()[:1], [first_error], "the first line on standard error")


def filled(room):
    serves(room, [*BEGUN, (writes(0, ADAMS), told("00")), (writes(0, SMITH), told("00")), (writes(0, SVEN), told("02"))])


READINGS = [
    (performs(0, READ_NEXT), told("00", ADAMS)),
    (performs(0, READ, area="0009"), told("23")),
    (performs(0, READ, key=1, area="0000SMITH "), told("02", SMITH)),
    (performs(0, START, operand=2, key=0, part=4, area="0003"), told("00")),
    (performs(0, READ_NEXT), told("00", SVEN)),
    (performs(0, READ_NEXT), told("10")),
]
READINGS_ASKED = b"".join(request for request, _ in READINGS)
READINGS_TOLD = b"".join(answer for _, answer in READINGS)


def answers_in_one_write(room):
    filled(room)
    reads = [*READINGS, (performs(0, START, operand=1, key=0, part=4, area="0001"), told("00"))]
    others = [(writes(0, SMITH), told("22")), (performs(0, CLOSE), told("00")), (releases(0), DONE)]
    opens = [LISTED[0], (performs(0, OPEN, I_O), told("00"))]
    with client(room) as (send, one_write):
        send(b"".join(request for request, _ in [*opens, *reads, others[0], reads[-1], *others[1:]]))
        for answer in (DONE, told("00"), READINGS_TOLD + told("00"), told("22"), told("00"), told("00"), DONE):
            wants(one_write(), answer, "a write")


def as_many_answers_as_there_is_room_for(room):
    long = ADAMS + 3984 * "."
    described = (describes(0, "cust.dat", greatest=4000), DONE)
    serves(room, [described, BEGUN[1], (writes(0, long), told("00"))])
    with client(room) as (send, one_write):
        send(described[0] + LISTED[1][0] + 40 * performs(0, READ, area="0001"))
        for answer in (DONE, told("00"), 16 * told("00", long), 16 * told("00", long), 8 * told("00", long)):
            wants(one_write(), answer, "a write")


def answers_to_a_client_that_waits(room):
    filled(room)
    with client(room) as (send, one_write):
        for request, answer in [*LISTED, *READINGS]:
            send(request)
            wants(one_write(), answer, "a write")
    next_one = performs(0, READ_NEXT)
    for sent in range(1, len(next_one)):
        with client(room) as (send, one_write):
            send(LISTED[0][0] + LISTED[1][0] + READINGS_ASKED + next_one[:sent])
            for answer in (DONE, told("00"), READINGS_TOLD):
                wants(one_write(), answer, "a write")
            send(next_one[sent:])
            wants(one_write(), told("46"), "a write")


def trials():
    yield "requests that write a file and read it", written_and_read
    yield "a file that is open at the end of the input", closed_at_the_end
    yield "an input that ends in a frame", cut_frame
    yield "a length past the limit", length_past_the_limit
    yield "frames that are no requests", no_requests
    yield "requests that are refused", refusals
    yield "requests with several reasons to be refused", first_of_several_reasons
    yield "requests on records of varying length", varying_records
    yield "requests on two files", two_files
    yield "a file that is released and described again", described_again
    yield "answers on a full device", answers_on_a_full_device
    yield "answers to requests that only read, in one write", answers_in_one_write
    yield "answers that are more than are held", as_many_answers_as_there_is_room_for
    yield "a client that waits for each answer", answers_to_a_client_that_waits
