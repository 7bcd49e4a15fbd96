#!/usr/bin/env python3
"""decks.py FOLDER: writes three decks of about 1 MB each."""
import sys
from pathlib import Path

FRONT = """ENVIRONMENT DIVISION.
INPUT-OUTPUT SECTION.
FILE-CONTROL.
    SELECT STOCK ASSIGN TO "stock.dat" ORGANIZATION IS INDEXED ACCESS MODE IS DYNAMIC RECORD KEY IS ARTICLE.
DATA DIVISION.
FILE SECTION.
FD STOCK.
01 STOCK-RECORD.
    05 ARTICLE PIC X(6).
"""
SENTENCES = """    MOVE "KETTLE" TO ARTICLE.
    MOVE 590 TO COUNTRY.
    MOVE 12 TO ON-HAND.
    WRITE STOCK-RECORD.
    READ STOCK NEXT.
    START STOCK KEY IS NOT LESS THAN ARTICLE.
    REWRITE STOCK-RECORD.
"""
LIMIT = 1_048_576


def verbs():
    front = FRONT + "    05 COUNTRY PIC 9(3).\n    05 ON-HAND PIC 9(4).\nPROCEDURE DIVISION.\n    OPEN I-O STOCK.\n"
    return front + SENTENCES * ((LIMIT - len(front)) // len(SENTENCES))


def lengths(items=38_873, moves=18_344):
    text = FRONT + "WORKING-STORAGE SECTION.\n"
    text += "".join(f"77 L{n:05d} PIC 99.\n" for n in range(items)) + "PROCEDURE DIVISION.\n"
    return text + "".join(f"MOVE 1 TO L{n * 7919 % items:05d}.\n" for n in range(moves))


def records(items=3_900):
    text = FRONT + "".join(f"    05 N{n:04d} PIC X.\n" for n in range(items)) + "PROCEDURE DIVISION.\n"
    moves = (LIMIT - len(text)) // len('MOVE "A" TO N0000.\n')
    return text + "".join(f'MOVE "A" TO N{n * 7919 % items:04d}.\n' for n in range(moves))


folder = Path(sys.argv[1])
for name, text in [("verbs", verbs()), ("lengths", lengths()), ("record", records())]:
    (folder / f"{name}.deck").write_text(text)
