"""Indexed files with the verbs of COBOL, in this process: cobix.h for Python.

A session is over the files of a folder, a file is described, and then its verbs are performed.

>>> import cobix, tempfile
>>> from cobix import Field, Key
>>> folder = tempfile.TemporaryDirectory()
>>> session = cobix.Session(folder.name)
>>> staff = session.file("staff.dat", keys=[Key("number"), Key("city", duplicates=True)], fields=[
...     Field("number", 4, int), Field("name", 8), Field("city", 6), Field("pay", 6, int)])
>>> with staff.open("output"):
...     staff.write({"number": 104, "name": "OKAFOR", "city": "LAGOS", "pay": 310000})
...     staff.write({"number": 17, "name": "LINDQVIS", "city": "LUND", "pay": 280500})
...     staff.write({"number": 250, "name": "ADEYEMI", "city": "LAGOS", "pay": 295000})

Records are dicts where the file has fields, else bytes. A file is iterated in the order of its prime key, or from where START or
READ has put it, in the order of that key.

>>> with staff.open("i-o"):
...     print(staff.read(104)["name"])
...     staff.start("LAGOS", key="city", relation="=")
...     print([record["name"] for record in staff if record["city"] == "LAGOS"])
...     staff.rewrite({**staff.read(17), "pay": 300000})
...     staff.delete(250)
...     print(staff.read(17))
OKAFOR
['OKAFOR', 'ADEYEMI']
{'number': 17, 'name': 'LINDQVIS', 'city': 'LUND', 'pay': 300000}

A status that is no success is an exception, which has the number and its words.

>>> with staff.open("input"):
...     try:
...         staff.read(250)
...     except cobix.NotFound as error:
...         print(error.status, "-", error)
23 - READ staff.dat: no such record (23)
>>> staff.write(b"0001")
Traceback (most recent call last):
    ...
cobix.NotPermitted: WRITE staff.dat: the file is not open for writing (48)

Without fields a record is its bytes, and a key has its place.

>>> log = session.file("log.dat", keys=[Key("time", 0, 8)], least=8, greatest=40, access="sequential")
>>> with log.open("output"):
...     log.write(b"20261128 begun")
...     log.status
0
>>> with log.open("input"):
...     list(log)
[b'20261128 begun']
>>> session.close()
>>> folder.cleanup()

Close a file to know that it is on the disk: CLOSE raises where it is not. A session is used by any thread, one call at a time, and not by
a child of fork(). What a program that is killed leaves unclosed is refused (Unsound) by the next open, unless that is for output.
"""
import ctypes
import os
from collections import namedtuple
from ctypes import POINTER, byref, c_bool, c_char_p, c_int, c_size_t, c_uint, c_uint16, c_uint32, c_void_p

__all__ = ["Session", "File", "Field", "Key", "Error", "EndOfFile", "Clash", "NotFound", "NotPermitted", "Fault", "Unsound", "Misuse"]
__version__ = "0.1.0"


class Error(Exception):
    """An answer that is no success: `status` is the status of the verb, or a number below 0 where it was not performed."""

    def __init__(self, status, what):
        super().__init__(f"{what}: {_library.cobix_message(status).decode()} ({status})")
        self.status = status


class EndOfFile(Error):
    """No next record (10)."""


class Clash(Error):
    """A key without duplicates has the value already (22)."""


class NotFound(Error):
    """No such record (23), or no such file (35)."""


class NotPermitted(Error):
    """The verb does not fit the state of the file (38 to 49), or the record or its order the file (21, 44)."""


class Fault(Error):
    """The device failed, or another run has the file (30); no room (24), no memory (90), or an earlier fault (92)."""


class Unsound(Fault):
    """The file was not closed when it was last changed, or is no file of cobix (91)."""


class Misuse(Error):
    """What cobix.h says of answers below 0: nothing was done."""


_KINDS = {10: EndOfFile, 22: Clash, 23: NotFound, 35: NotFound, 24: Fault, 30: Fault, 90: Fault, 91: Unsound, 92: Fault}


def _error(status, what):
    return (Misuse if status < 0 else _KINDS.get(status, NotPermitted))(status, what)


def _are_below(limit, numbers):
    """Whether C is told these numbers as they are: ctypes cuts a number to the bits that there are."""
    return all(0 <= number < limit for number in numbers)


class Field(namedtuple("Field", "name length kind")):
    """A field of a record: `str` is text with spaces behind it, `int` digits with zeros before them, `bytes` as it is."""

    def __new__(cls, name, length, kind=str):
        if kind not in (str, int, bytes) or length < 1:
            raise ValueError(f"{name}: a field has a length, and is str, int or bytes")
        return super().__new__(cls, name, length, kind)

    def pack(self, value):
        if self.kind is int:
            if value < 0:
                raise ValueError(f"{self.name}: {value} is below 0")
            packed = b"%0*d" % (self.length, value)
        elif self.kind is str:
            packed = value.encode("latin-1").ljust(self.length)
        else:
            packed = bytes(value)
        if len(packed) != self.length:
            raise ValueError(f"{self.name}: {value!r} does not have {self.length} bytes")
        return packed

    def unpack(self, packed):
        return int(packed) if self.kind is int else packed.decode("latin-1").rstrip(" ") if self.kind is str else packed


class Key(namedtuple("Key", "name offset length duplicates")):
    """A key by its name: where it stands in the record, or nothing of that where a field has its name."""

    def __new__(cls, name, offset=None, length=None, duplicates=False):
        return super().__new__(cls, name, offset, length, duplicates)


class _Key(ctypes.Structure):
    _fields_ = [("offset", c_uint16), ("length", c_uint16), ("duplicates", c_bool)]


class _Description(ctypes.Structure):
    _fields_ = [("name", c_char_p), ("access", c_int), ("optional", c_bool), ("least", c_uint16), ("greatest", c_uint16),
                ("key_count", c_uint), ("keys", POINTER(_Key))]


class _Limits(ctypes.Structure):
    _fields_ = [("pages", c_uint32), ("frames", c_uint32)]


def _load():
    beside = os.path.join(os.path.dirname(os.path.abspath(__file__)), "libcobix.so.0")
    name = os.environ.get("COBIX_LIBRARY") or (beside if os.path.exists(beside) else "libcobix.so.0")
    library = ctypes.CDLL(name)
    out, length = POINTER(c_void_p), POINTER(c_size_t)
    for call, arguments in {
        "open": [c_char_p, POINTER(_Limits), out], "close": [c_void_p], "describe": [c_void_p, POINTER(_Description), out],
        "release": [c_void_p], "open_file": [c_void_p, c_int], "close_file": [c_void_p, c_bool],
        "read_next": [c_void_p, out, length], "read": [c_void_p, c_uint, c_char_p, out, length],
        "start": [c_void_p, c_uint, c_int, c_char_p, c_size_t], "write": [c_void_p, c_char_p, c_size_t],
        "rewrite": [c_void_p, c_char_p, c_size_t], "delete": [c_void_p, c_char_p],
    }.items():
        getattr(library, "cobix_" + call).argtypes = arguments
    library.cobix_message.argtypes, library.cobix_message.restype = [c_int], c_char_p
    return library


_library = _load()
_ACCESSES = {"sequential": 0, "random": 1, "dynamic": 2}
_MODES = {"input": 0, "output": 1, "i-o": 2, "extend": 3}
_RELATIONS = {"=": 0, ">": 1, ">=": 2}


class Session:
    """The files of a folder, each with at most `pages` pages, of which `frames` are held in memory."""

    def __init__(self, folder, pages=0, frames=0):
        self._at, path, what = c_void_p(), os.fsencode(folder), f"session over {os.fspath(folder)!r}"
        if b"\0" in path or not _are_below(1 << 32, (pages, frames)):
            raise _error(-3 if b"\0" in path else -1, what)
        answer = _library.cobix_open(path, byref(_Limits(pages, frames)), byref(self._at))
        if answer < 0:
            raise _error(answer, what)

    def file(self, name, keys, fields=None, least=None, greatest=None, access="dynamic", optional=False):
        """Describes a file. The first key is the prime one. Nothing is read or written yet."""
        return File(self, name, keys, fields, least, greatest, access, optional)

    def close(self):
        """Closes the files that are open, and ends the session. Fault (30) where one of them was not closed well."""
        at, self._at = self._at, c_void_p()
        answer = _library.cobix_close(at) if at else 0
        if answer < 0:
            self._at = at
        if answer:
            raise _error(answer, "end of the session")

    def __enter__(self):
        return self

    def __exit__(self, kind, error, trace):
        _close_behind(self, kind)


def _close_behind(it, kind):
    """Closes what was entered. Where an error came before, that one is told."""
    try:
        it.close()
    except Error:
        if kind is None:
            raise


class File:
    """A described file. `status` is the last status of a verb on it."""

    def __init__(self, session, name, keys, fields, least, greatest, access, optional):
        self.name, self.status, self.fields, self._session = name, None, fields, session
        length = sum(field.length for field in fields or ())
        keys = [self._placed(key) for key in keys]
        keys[1:] = sorted(keys[1:], key=lambda key: key.offset)
        self.keys = {key.name: number for number, key in enumerate(keys)}
        self._keys = keys
        least, greatest = length if least is None else least, length if greatest is None else greatest
        numbers = [least, greatest, *(number for key in keys for number in (key.offset, key.length))]
        if "\0" in name or not _are_below(1 << 16, numbers):
            raise _error(-7, f"description of {name!r}")
        described = _Description(name.encode(), _ACCESSES[access], optional, least, greatest, len(keys),
                                 (_Key * len(keys))(*((key.offset, key.length, key.duplicates) for key in keys)))
        self._at = c_void_p()
        answer = _library.cobix_describe(session._at, byref(described), byref(self._at))
        if answer < 0:
            raise _error(answer, f"description of {name!r}")

    def _placed(self, key):
        offset = 0
        for field in self.fields or ():
            if key.offset is None and field.name == key.name:
                return key._replace(offset=offset, length=field.length)
            offset += field.length
        if key.offset is None or key.length is None:
            raise ValueError(f"{key.name}: no field has the key's name")
        return key

    def _verb(self, verb, call, *operands):
        if not self._session._at or not self._at:
            raise Misuse(-1, f"{verb} {self.name}, {'which was released' if self._session._at else 'in a session that was closed'}")
        answer = getattr(_library, "cobix_" + call)(self._at, *operands)
        if answer >= 0:
            self.status = answer
        if not 0 <= answer < 10:
            raise _error(answer, f"{verb} {self.name}")

    def _reads(self, verb, call, *operands):
        at, length = c_void_p(), c_size_t()
        self._verb(verb, call, *operands, byref(at), byref(length))
        return self._unpacked(ctypes.string_at(at, length.value))

    def _packed(self, record):
        if self.fields and not isinstance(record, (bytes, bytearray)):
            return b"".join(field.pack(record[field.name]) for field in self.fields)
        return bytes(record)

    def _unpacked(self, record):
        if not self.fields:
            return record
        values, at = {}, 0
        for field in self.fields:
            values[field.name], at = field.unpack(record[at:at + field.length]), at + field.length
        return values

    def _value(self, key, value):
        """The number of a key, and the bytes of a value, as a field of its name has them."""
        key = self._keys[0] if key is None else self._keys[self.keys[key]]
        field = next((field for field in self.fields or () if field.name == key.name), None)
        if field and not isinstance(value, (bytes, bytearray)):
            value = field.pack(value)
        return self.keys[key.name], key, bytes(value)

    def _whole(self, key, value):
        number, key, value = self._value(key, value)
        if len(value) != key.length:
            raise ValueError(f"{key.name}: a key has all of its {key.length} bytes")
        return number, value

    def open(self, mode):
        """OPEN, for "input", "output", "i-o" or "extend". With `with`, the file is closed at the end."""
        self._verb("OPEN", "open_file", _MODES[mode])
        return self

    def close(self, lock=False):
        self._verb("CLOSE", "close_file", lock)

    def release(self):
        """Gives up the description, and with it the lock of the system. The session may give its place to the next file."""
        self._verb("release of", "release")
        self._at = c_void_p()

    def read_next(self):
        return self._reads("READ NEXT", "read_next")

    def read(self, value, key=None):
        """READ by the prime key, or by the key of this name."""
        return self._reads("READ", "read", *self._whole(key, value))

    def start(self, value, key=None, relation=">="):
        """START where the key is in this relation to the value: =, > or >=. Bytes may be the first ones of a key."""
        number, _, value = self._value(key, value)
        self._verb("START", "start", number, _RELATIONS[relation], value, len(value))

    def write(self, record):
        record = self._packed(record)
        self._verb("WRITE", "write", record, len(record))

    def rewrite(self, record):
        record = self._packed(record)
        self._verb("REWRITE", "rewrite", record, len(record))

    def delete(self, prime=None):
        """DELETE of the record with this prime key; in sequential access, of the one that was read."""
        self._verb("DELETE", "delete", None if prime is None else self._whole(None, prime)[1])

    def __iter__(self):
        """The records from the position on, to the last one."""
        while True:
            try:
                yield self.read_next()
            except EndOfFile:
                return

    def __enter__(self):
        return self

    def __exit__(self, kind, error, trace):
        _close_behind(self, kind)
