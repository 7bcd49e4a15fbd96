"""Files of the lines that a load rejects: what they have, what is refused, and what comes of them once they are mended.

`trials()` gives each by its name, as those of edges.py.
"""
import resource

from edges import wants

DECK = """ENVIRONMENT DIVISION.
INPUT-OUTPUT SECTION.
FILE-CONTROL.
    SELECT GOODS ASSIGN TO "goods.dat" ORGANIZATION IS INDEXED
        ACCESS MODE IS DYNAMIC RECORD KEY IS GOODS-ID
        ALTERNATE RECORD KEY IS GOODS-CODE.
DATA DIVISION.
FILE SECTION.
FD GOODS.
01 GOODS-REC.
    05 GOODS-ID PIC 9(4).
    05 GOODS-CODE PIC X(2).
    05 GOODS-NAME PIC X(4).
PROCEDURE DIVISION.
MAIN-LINE.
    STOP RUN.
"""
HEADER = b'"GOODS-ID","GOODS-CODE","GOODS-NAME"\r\n'
GOOD = ["0001", "AA", "LAMP"], ["0002", "BB", "DESK"]


def text_line(number, code, name):
    return f"[{number}{code}{name}]\n".encode()


def csv_line(number, code, name):
    return f'"{number}","{code}","{name}"\r\n'.encode()


def json_line(number, code, name):
    return f'{{"GOODS-ID":"{number}","GOODS-CODE":"{code}","GOODS-NAME":"{name}"}}\n'.encode()


# Of each form its header, the line of a record, and lines that are none's
FORMS = {
    "text": (b"", text_line, [b"no line\n", b"[0003CCLAMP\r]\n", b"\n", b"[0003]\r\n"]),
    "csv": (HEADER, csv_line, [b"no line\r\n", b'"0003","CC"\r\n', b"\n", b'"0003","CC","LAMP"\n']),
    "json": (b"", json_line, [b"no line\n", b'{"GOODS-ID": "0003"}\n', b"\n", b"[]\r\n"]),
}


def words(room, text, form, *options):
    deck, lines = room.place / "goods.deck", room.place / "lines"
    deck.write_text(DECK)
    lines.write_bytes(text)
    return [room.program, "load", deck, "--folder", room.files, "--file", "GOODS", "--as", form, *options, lines]


def listed(room, form):
    """The records of the file, as a list in this form."""
    columns = () if form == "text" else ("--deck", room.place / "goods.deck", "--file", "GOODS")
    return room.call([room.program, "list", room.files / "goods.dat", "--as", form, *columns]).stdout


def told_without(room, text, form, *options):
    """What the load tells that keeps no file of rejected lines, over a folder of its own."""
    other = room.place / "other"
    other.mkdir()
    asked = [other if it == room.files else it for it in words(room, text, form, "--keep-going", *options)]
    ended = room.call(asked)
    return ended.returncode, ended.stdout, ended.stderr


def rejected_lines_are_kept(room, form, count):
    """So many of the lines are rejected: the file has them, each as it stands in the text, after the header of the form. What is told is what is told without it."""
    header, line_of, none = FORMS[form]
    rejected = [*none[:1], line_of("0009", "AA", "TWIN"), line_of("0001", "ZZ", "TWIN"), *none[1:]][:count]
    lines = [line_of(*GOOD[0]), *rejected[:2], line_of(*GOOD[1]), *rejected[2:]]
    rejects = room.place / "rejects"
    before = told_without(room, header + b"".join(lines), form)
    ended = room.call(words(room, header + b"".join(lines), form, "--keep-going", "--rejects", rejects))
    wants((ended.returncode, ended.stdout, ended.stderr), before, "what is told")
    wants((ended.returncode, ended.stdout.split(b",")[0].strip()), (1 if count else 0, b"loaded 2"), "the load")
    wants(rejects.read_bytes(), header + b"".join(rejected), "the lines that are kept")
    wants(listed(room, form), header + line_of(*GOOD[0]) + line_of(*GOOD[1]), "the records")


def kept_lines_are_loaded(room, form):
    """The lines that were rejected are mended and loaded. Once all are, what is kept of them has no line, and is loaded as no record."""
    header, line_of, _ = FORMS[form]
    first, second, third = (room.place / it for it in ("first", "second", "third"))
    twin = line_of("0001", "CC", "TWIN")
    ended = room.call(words(room, header + line_of(*GOOD[0]) + twin + line_of(*GOOD[1]), form, "--keep-going", "--rejects", first))
    wants((ended.returncode, ended.stdout), (1, b"loaded 2, rejected 1\n"), "the load")
    ended = room.call(words(room, first.read_bytes(), form, "--into", "--keep-going", "--rejects", second))
    wants((ended.returncode, ended.stdout), (1, b"loaded 0, rejected 1\n"), "the load of what was rejected, as it is")
    wants(second.read_bytes(), first.read_bytes(), "the lines that are kept of it")
    ended = room.call(words(room, second.read_bytes().replace(b"0001", b"0003"), form, "--into", "--keep-going", "--rejects", third))
    wants((ended.returncode, ended.stdout, ended.stderr), (0, b"loaded 1\n", b""), "the load of what was mended")
    wants(third.read_bytes(), header, "the lines that are kept of it")
    ended = room.call(words(room, third.read_bytes(), form, "--into"))
    wants((ended.returncode, ended.stdout), (0, b"loaded 0\n"), "the load of a file that kept no line")
    wants(listed(room, form), header + line_of(*GOOD[0]) + line_of(*GOOD[1]) + line_of("0003", "CC", "TWIN"), "the records")


def rejected_lines_of_utf_8(room):
    """Of a text in UTF-8 the lines are kept with escapes in the place of characters that are bytes, and all else as it stands. Mended, they are loaded in UTF-8."""
    rejects = room.place / "rejects"
    text = HEADER + '"0001","éé","LAMP"\r\n"0002","éé","DéSK"\r\n"0003","CC","5 €é"\r\n'.encode()
    ended = room.call(words(room, text, "csv", "--encoding", "utf-8", "--keep-going", "--rejects", rejects))
    wants((ended.returncode, ended.stdout), (1, b"loaded 1, rejected 2\n"), "the load")
    mistake = b"line 4, column 3 GOODS-NAME: 2 characters, then byte e2, which no list writes"
    told = [b"cobix: line 3: status 22", b"cobix: line 4: no record of this file", mistake, b"line 4: U+20AC, which is no byte"]
    wants(ended.stderr.splitlines(), told, "what is told")
    kept = HEADER + '"0002","\\e9\\e9","D\\e9SK"\r\n"0003","CC","5 €\\e9"\r\n'.encode()
    wants(rejects.read_bytes(), kept, "the lines that are kept")
    mended = kept.replace(b'"0002","\\e9\\e9"', b'"0002","BB"').replace("€".encode(), b"E")
    ended = room.call(words(room, mended, "csv", "--encoding", "utf-8", "--into"))
    wants((ended.returncode, ended.stdout), (0, b"loaded 2\n"), "the load of what was mended")
    wants(listed(room, "csv"), HEADER + b'"0001","\\e9\\e9","LAMP"\r\n"0002","BB","D\\e9SK"\r\n"0003","CC","5 E\\e9"\r\n', "the records")


def last_line_without_its_end(room):
    """A last line without LF is kept without it, and lines that are skipped are not kept."""
    rejects = room.place / "rejects"
    text = b"skipped\n" + text_line(*GOOD[0]) + b"no line\r\n" + b"[0002BBDE"
    ended = room.call(words(room, text, "text", "--keep-going", "--skip", "1", "--rejects", rejects))
    wants((ended.returncode, ended.stdout), (1, b"loaded 1, rejected 2\n"), "the load")
    wants(rejects.read_bytes(), b"no line\r\n[0002BBDE", "the lines that are kept")


def replaced_lines_are_not_kept(room):
    """A line that takes the place of a record is not rejected."""
    rejects = room.place / "rejects"
    room.call(words(room, text_line(*GOOD[0]) + text_line(*GOOD[1]), "text"))
    text = text_line("0001", "AA", "DESK") + text_line("0002", "AA", "LAMP") + text_line("0003", "CC", "LAMP")
    ended = room.call(words(room, text, "text", "--into", "--replace", "--keep-going", "--rejects", rejects))
    wants((ended.returncode, ended.stdout, ended.stderr), (1, b"loaded 1, replaced 1, rejected 1\n", b"cobix: line 2: status 22\n"), "the load")
    wants(rejects.read_bytes(), text_line("0002", "AA", "LAMP"), "the lines that are kept")


def what_is_there_is_left(room):
    """What has the name of the file stays as it is: a file, the text, a folder, a link, a device. Nothing is loaded, and no file is made."""
    text = text_line(*GOOD[0]) + b"no line\n"
    mine, folder, link, away = (room.place / it for it in ("mine", "folder", "link", "away"))
    mine.write_text("mine\n")
    folder.mkdir()
    link.symlink_to("mine")
    away.symlink_to("nowhere")
    for path in (mine, room.place / "lines", folder, link, away, "/dev/full"):
        ended = room.call(words(room, text, "text", "--keep-going", "--rejects", path))
        wants((ended.returncode, ended.stdout, ended.stderr.decode()), (4, b"", f"cobix: output\n  {path}: is there already\n"), f"a load that keeps rejected lines in {path}")
    wants((mine.read_text(), (room.place / "lines").read_bytes(), list(folder.iterdir()), link.is_symlink(), away.is_symlink()), ("mine\n", text, [], True, True), "what is there")
    wants((list(room.files.iterdir()), (room.place / "nowhere").exists()), ([], False), "the files")


def what_cannot_be_made(room):
    """A path in no folder, one below a file, and an empty one: nothing is loaded, and the file that is there is as it was."""
    room.call(words(room, text_line(*GOOD[0]), "text"))
    before = (room.files / "goods.dat").read_bytes()
    for path, cause in [
        (room.place / "missing" / "rejects", "no such folder"),
        (room.place / "lines" / "rejects", "is in no folder"),
        ("", "no such folder"),
        (room.place / "with \\ and \x07" / "é", "no such folder"),
    ]:
        ended = room.call(words(room, text_line(*GOOD[1]), "text", "--into", "--keep-going", "--rejects", path))
        shown = str(path).replace("\\", "\\5c").replace("\x07", "\\07").replace("é", "\\c3\\a9")
        wants((ended.returncode, ended.stdout, ended.stderr.decode()), (4, b"", f"cobix: output\n  {shown}: {cause}\n"), f"a load that keeps rejected lines in {path}")
    wants((room.files / "goods.dat").read_bytes() == before, True, "whether the file is as it was")


def without_keep_going(room):
    """The first line that is rejected would end the load, so none could be kept: the words are refused, and nothing is read or made."""
    rejects = room.place / "rejects"
    ended = room.call(words(room, text_line(*GOOD[0]), "text", "--rejects", rejects))
    wants((ended.returncode, ended.stdout, ended.stderr), (3, b"", b"cobix: '--rejects' wants '--keep-going'\n"), "the load")
    wants((rejects.exists(), list(room.files.iterdir())), (False, []), "the files")


def what_is_refused_before(room):
    """A deck that is refused, a file that it does not have, and a text that is not there: no file for rejected lines is made then. Where the load begins and OPEN is no success it is made, and has no line."""
    rejects = room.place / "rejects"
    asked = words(room, b"", "text", "--keep-going", "--rejects", rejects)
    none = [*asked]
    none[none.index("GOODS")] = "NONE"
    missing = [*asked[:-1], room.place / "missing"]
    refused = [*asked]
    refused[2] = room.place / "lines"
    for it, status in ((none, 3), (missing, 4), (refused, 2)):
        wants((room.call(it).returncode, rejects.exists()), (status, False), "exit status, and whether the file is made")
    ended = room.call([*asked[:-1], "--into", asked[-1]])
    wants((ended.returncode, ended.stdout), (1, b"open: status 35\n"), "a load into a file that is not there")
    wants(rejects.read_bytes(), b"", "the lines that are kept")


def device_is_full(room):
    """A limit of the system on the size of a file is met by the rejected lines. The load goes on: all lines are told, and what was loaded; and then that the output failed. What is kept is a front of the lines."""
    rejects, size = room.place / "rejects", 40_000
    none = [b"no line of a record, number %06d, of some length\n" % n for n in range(2_000)]
    text = b"".join([text_line(*GOOD[0]), *none, text_line(*GOOD[1])])
    told = told_without(room, text, "text")

    def limited():
        resource.setrlimit(resource.RLIMIT_FSIZE, (size, size))

    ended = room.call(words(room, text, "text", "--keep-going", "--rejects", rejects), preexec_fn=limited, restore_signals=False)
    wants((ended.returncode, ended.stdout), (4, b"loaded 2, rejected 2000\n"), "the load")
    wants(ended.stderr == told[2] + f"cobix: output\n  {rejects}: file too large\n".encode(), True, f"whether each line is told, and then the cause, {ended.stderr[-100:]!r}")
    wants(rejects.read_bytes() == b"".join(none)[:size], True, "whether the file has a front of the lines")
    wants(listed(room, "text"), text_line(*GOOD[0]) + text_line(*GOOD[1]), "the records")


def trials():
    for form in FORMS:
        for count in (0, 1, 2, 3, 6):
            yield f"{count} rejected lines of {form}", lambda room, form=form, count=count: rejected_lines_are_kept(room, form, count)
        yield f"rejected lines of {form} that are mended and loaded", lambda room, form=form: kept_lines_are_loaded(room, form)
    yield "rejected lines of a text in UTF-8", rejected_lines_of_utf_8
    yield "a last line without its end, and lines that are skipped", last_line_without_its_end
    yield "lines that replace records", replaced_lines_are_not_kept
    yield "a file for rejected lines that is there", what_is_there_is_left
    yield "a file for rejected lines that cannot be made", what_cannot_be_made
    yield "a file for rejected lines without --keep-going", without_keep_going
    yield "what is refused before a file for rejected lines is made", what_is_refused_before
    yield "a file for rejected lines on a device that is full", device_is_full
