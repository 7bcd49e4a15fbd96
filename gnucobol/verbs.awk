# Draws random verbs on one file: writes them as a deck of cobix to the file `deck`, and as lines for programs/random.cob to the
# file `verbs`.    awk -v seed=N -v access=SEQUENTIAL|RANDOM|DYNAMIC -v count=N -f verbs.awk
function draw(n) { return int(rand() * n) }
function letter(n) { return substr("ABCDEFGH", 1 + draw(n), 1) }
function head(   line) {
    print "ENVIRONMENT DIVISION. INPUT-OUTPUT SECTION. FILE-CONTROL." > "deck"
    print "SELECT F ASSIGN TO \"f.dat\" ORGANIZATION IS INDEXED ACCESS MODE IS " access > "deck"
    print "RECORD KEY IS F-KEY ALTERNATE RECORD KEY IS F-UNIQUE" > "deck"
    print "ALTERNATE RECORD KEY IS F-GROUP WITH DUPLICATES." > "deck"
    print "DATA DIVISION. FILE SECTION." > "deck"
    print "FD F RECORD IS VARYING IN SIZE FROM 7 TO 14 CHARACTERS DEPENDING ON F-LENGTH." > "deck"
    print "01 F-RECORD. 05 F-KEY. 10 F-KEY-1 PIC X. 10 F-KEY-2 PIC X. 05 F-GROUP PIC X." > "deck"
    print "05 F-UNIQUE. 10 F-UNIQUE-1 PIC X. 10 F-UNIQUE-2 PIC X. 05 F-TEXT PIC X(9)." > "deck"
    print "WORKING-STORAGE SECTION. 77 F-LENGTH PIC 99." > "deck"
    print "PROCEDURE DIVISION." > "deck"
}
# The prime key: in sequential access mostly rising, for WRITE.
function key(code) {
    if (access == "SEQUENTIAL" && code == "WR" && draw(8)) rising += draw(3)
    return code == "WR" && access == "SEQUENTIAL" ? sprintf("%02d", rising % 100) : letter(5) letter(8)
}
function put(code, statement,   length_of_record, record) {
    length_of_record = draw(12) == 0 ? 5 + draw(12) : 7 + draw(8)
    record = key(code) letter(3) letter(5) letter(8) sprintf("%09d", draw(100000000))
    if (code == "RW" && access == "SEQUENTIAL" && draw(5)) record = ""  # as it was read
    printf "MOVE %d TO F-LENGTH. %s%s.\n", length_of_record, record ? "MOVE \"" record "\" TO F-RECORD. " : "", statement > "deck"
    printf "%s%02d%s\n", code, length_of_record, record > "verbs"
}
function start(   of, relation) {
    of = 1 + draw(4)
    relation = substr("=>N", 1 + draw(3), 1)
    put(of relation, "START F KEY " (relation == "N" ? "NOT <" : relation) " " \
        (of == 1 ? "F-KEY" : of == 2 ? "F-KEY-1" : of == 3 ? "F-GROUP" : relation == "=" ? "F-UNIQUE" : "F-UNIQUE-1"))
}
function read(of) {
    put(substr("RKRGRU", 1 + 2 * of, 2), "READ F" (of == 0 ? "" : " KEY IS " (of == 1 ? "F-GROUP" : "F-UNIQUE")))
}
function open_or_close(   n) {
    n = draw(10)
    if (n) put("CL", "CLOSE F")
    if (n < 2) put("OI", "OPEN INPUT F")
    else if (n < 6 && access == "SEQUENTIAL") put("OE", "OPEN EXTEND F")
    else if (n == 9 && draw(4) == 0) put("OO", "OPEN OUTPUT F")
    else if (n < 9) put("OB", "OPEN I-O F")
}
function verb(   n) {
    n = draw(20)
    if (n < 2) open_or_close()
    else if (n < 9) put("WR", "WRITE F-RECORD")
    else if (n < 11) put("RW", "REWRITE F-RECORD")
    else if (n < 12) put("DE", "DELETE F")
    else if (access == "SEQUENTIAL") { if (n < 14) start(); else put("RN", "READ F") }
    else if (n < 15) read(n - 12)
    else if (access == "RANDOM") put("RK", "READ F")
    else if (n < 17) start()
    else put("RN", "READ F NEXT")
}
function read_next(n) { while (n-- > 0) put("RN", access == "SEQUENTIAL" ? "READ F" : "READ F NEXT") }
function reopen(code, mode) { put("CL", "CLOSE F"); put(code, "OPEN " mode " F") }
# Each verb in turn on a file that is open INPUT, some READ NEXTs before it and behind it.
function among_read_next(   i) {
    reopen("OI", "INPUT")
    for (i = 0; i < 24; i++) {
        read_next(1 + draw(i % 3 ? 12 : 3))
        if (i % 8 == 0) start()
        else if (i % 8 == 1) put("WR", "WRITE F-RECORD")
        else if (i % 8 == 2) put("RW", "REWRITE F-RECORD")
        else if (i % 8 == 3) put("DE", "DELETE F")
        else if (i % 8 == 4) put("OB", "OPEN I-O F")
        else if (i % 8 == 5) { put("CL", "CLOSE F"); read_next(2); put("OI", "OPEN INPUT F") }
        else if (i % 8 == 6) { reopen("OB", "I-O"); read_next(3); put("RW", "REWRITE F-RECORD"); read_next(2); put("DE", "DELETE F"); reopen("OI", "INPUT") }
        else if (access == "DYNAMIC") read(draw(3))
        else start()
    }
    read_next(50)
}
BEGIN {
    srand(seed)
    head()
    verb()
    put("OO", "OPEN OUTPUT F")
    for (i = 0; i < count; i++)
        verb()
    if (access != "RANDOM") among_read_next()
    reopen("OI", "INPUT")
    put("CW", "CLOSE F WITH LOCK")
    put("OB", "OPEN I-O F")
    print "STOP RUN." > "deck"
}
