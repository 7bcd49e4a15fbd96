      *> A file that is open at the end, and whose name is gone by then.
       IDENTIFICATION DIVISION.
       PROGRAM-ID. UNCLOSED.
       ENVIRONMENT DIVISION.
       INPUT-OUTPUT SECTION.
       FILE-CONTROL.
           SELECT F ASSIGN TO "f.dat" ORGANIZATION IS INDEXED
               ACCESS MODE IS DYNAMIC RECORD KEY IS F-NUMBER
               FILE STATUS IS ST.
       DATA DIVISION.
       FILE SECTION.
       FD F.
       01 F-RECORD.
           05 F-NUMBER PIC 9(5).
           05 F-TEXT PIC X(15).
       WORKING-STORAGE SECTION.
       77 ST PIC XX.
       PROCEDURE DIVISION.
       MAIN-LINE.
           OPEN OUTPUT F.
           MOVE SPACES TO F-RECORD.
           MOVE 1 TO F-NUMBER.
           WRITE F-RECORD.
           DISPLAY "WRITE " ST.
           CALL "SYSTEM" USING "mv f.dat moved.txt".
           STOP RUN.
