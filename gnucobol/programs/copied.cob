      *> A copy of the program, by fork: its verbs are answered 30, and
      *> the program goes on.
       IDENTIFICATION DIVISION.
       PROGRAM-ID. COPIED.
       ENVIRONMENT DIVISION.
       INPUT-OUTPUT SECTION.
       FILE-CONTROL.
           SELECT F ASSIGN TO "f.dat" ORGANIZATION IS INDEXED
               ACCESS MODE IS DYNAMIC RECORD KEY IS F-KEY
               FILE STATUS IS ST.
       DATA DIVISION.
       FILE SECTION.
       FD F.
       01 F-RECORD.
           05 F-KEY PIC X(4).
       WORKING-STORAGE SECTION.
       77 ST PIC XX.
       77 CHILD PIC S9(9) COMP-5.
       PROCEDURE DIVISION.
       MAIN-LINE.
           OPEN OUTPUT F.
           MOVE "AAAA" TO F-KEY. WRITE F-RECORD.
           CALL "CBL_GC_FORK" RETURNING CHILD.
           IF CHILD = 0 PERFORM THE-COPY STOP RUN.
           CALL "CBL_GC_WAITPID" USING CHILD.
           MOVE "BBBB" TO F-KEY. WRITE F-RECORD.
           DISPLAY "WRITE " ST.
           CLOSE F. DISPLAY "CLOSE " ST.
           OPEN INPUT F. READ F NEXT. DISPLAY "READ " ST " " F-KEY.
           READ F NEXT. DISPLAY "READ " ST " " F-KEY.
           READ F NEXT. DISPLAY "READ " ST.
           STOP RUN.
       THE-COPY.
           MOVE "CCCC" TO F-KEY. WRITE F-RECORD.
           DISPLAY "    WRITE " ST.
           OPEN INPUT F. DISPLAY "    OPEN " ST.
           CLOSE F. DISPLAY "    CLOSE " ST.
