"""The module for Python: exceptions, descriptions, sessions that end.    usage: calls.py FOLDER, which is empty"""
import os
import sys
import threading
import cobix
from cobix import Field, Key

folder, checks = sys.argv[1], 0


def check(what, holds):
    global checks
    checks += 1
    if not holds:
        sys.exit(f"FAILED: {what}")


def raises(kind, status, call, *operands):
    try:
        call(*operands)
    except kind as error:
        check(f"{error}, and not {status}", getattr(error, "status", None) == status)
        return
    check(f"{kind.__name__} is raised", False)


FIELDS = [Field("number", 5, int), Field("group", 3), Field("raw", 4, bytes)]
KEYS = [Key("number"), Key("raw"), Key("group", duplicates=True)]


def make(session, name="f.dat", **words):
    return session.file(name, KEYS, FIELDS, **words)


def record(number, group="AAA"):
    return {"number": number, "group": group, "raw": number.to_bytes(4, "big")}


with cobix.Session(folder, frames=2) as session:
    file = make(session)
    raises(cobix.NotFound, 35, file.open, "input")
    raises(cobix.NotPermitted, 47, file.read, 1)
    with file.open("output"):
        for number in range(100):
            file.write(record(number * 37 % 100, "AAA" if number % 2 else "BBB"))
        raises(cobix.Clash, 22, file.write, record(5))
        raises(cobix.NotPermitted, 44, file.write, b"00001")
    with file.open("i-o"):
        check("all, in the order of the prime key", [it["number"] for it in file] == list(range(100)))
        raises(cobix.NotPermitted, 46, file.read_next)
        check("by an alternate of bytes", file.read((7).to_bytes(4, "big"), key="raw")["number"] == 7)
        file.start("B", key="group")
        check("by a part of a key", file.read_next()["group"] == "BBB")
        raises(cobix.NotFound, 23, file.start, 99, None, ">")
        raises(ValueError, None, file.read, b"1")
        raises(ValueError, None, file.write, record(123456))
        file.delete(5)
        raises(cobix.NotFound, 23, file.delete, 5)
        raises(cobix.Misuse, -1, file.delete)
        file.rewrite(record(6, "CCC"))
        check("rewritten", file.read("CCC", key="group") == record(6, "CCC"))
    raises(cobix.Misuse, -8, make, session)
    raises(cobix.Misuse, -7, make, session, "no/name")
    with cobix.Session(folder) as other:
        seen = make(other)
        raises(cobix.Fault, 30, seen.open, "input")
        file.release()
        taken = make(session, "g.dat")
        raises(cobix.Misuse, -1, file.open, "output")
        raises(cobix.NotFound, 35, taken.open, "input")
        raises(cobix.Misuse, -1, file.release)
        with seen.open("input"):
            check("what the first session left", len(list(seen)) == 99)
    raises(ValueError, None, session.file, "h.dat", [Key("absent")], FIELDS)
    raises(cobix.Misuse, -7, session.file, "h.dat\0", KEYS, FIELDS)
    raises(cobix.Misuse, -7, session.file, "h.dat", [Key("k", 65536, 5)], None, 65544, 65544)
    raises(cobix.Misuse, -7, session.file, "h.dat", [Key("k", -1, 5)], None, 8, 8)
raises(cobix.Misuse, -1, file.read_next)
raises(cobix.Misuse, -3, cobix.Session, os.path.join(folder, "absent"))
raises(cobix.Misuse, -3, cobix.Session, folder + "\0absent")
raises(cobix.Misuse, -1, cobix.Session, folder, 1 << 32)
raises(cobix.Misuse, -1, cobix.Session, folder, 0, -1)

# An exception in the midst is told, and the file is closed.
with cobix.Session(folder) as session:
    file = make(session, "h.dat")
    try:
        with file.open("output"):
            file.write(record(1))
            raise KeyError("mine")
    except KeyError as error:
        check("the exception that came first", error.args == ("mine",))
    with file.open("input"):
        check("and the record before it", [it["number"] for it in file] == [1])

# A file that cannot be closed at the end of its session, since another has its name.
session = cobix.Session(folder)
file = make(session, "moved.dat")
file.open("output")
file.write(record(1))
os.rename(os.path.join(folder, "moved.dat"), os.path.join(folder, "elsewhere.dat"))
raises(cobix.Fault, 30, session.close)
session.close()
raises(cobix.Misuse, -1, file.read_next)

# A session passed to a thread, and one of a parent in its child.
with cobix.Session(folder) as session:
    file = make(session, "t.dat")
    file.open("output")
    thread = threading.Thread(target=file.write, args=(record(1),))
    thread.start()
    thread.join()
    child = os.fork()
    if child == 0:
        try:
            raises(cobix.Misuse, -2, file.write, record(2))
            os._exit(0)
        finally:
            os._exit(1)
    check("the child", os.waitpid(child, 0)[1] == 0)
    file.close()
print(f"calls.py: {checks} passed")
