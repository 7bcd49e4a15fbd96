      *> The name of a file is in an item, and in the environment.
       IDENTIFICATION DIVISION.
       PROGRAM-ID. NAMES.
       ENVIRONMENT DIVISION.
       INPUT-OUTPUT SECTION.
       FILE-CONTROL.
           SELECT F ASSIGN TO F-NAME ORGANIZATION IS INDEXED
               ACCESS MODE IS DYNAMIC RECORD KEY IS F-KEY
               FILE STATUS IS ST.
       DATA DIVISION.
       FILE SECTION.
       FD F.
       01 F-RECORD.
           05 F-KEY PIC X(20).
       WORKING-STORAGE SECTION.
       77 ST PIC XX.
       77 F-NAME PIC X(20).
       PROCEDURE DIVISION.
       MAIN-LINE.
           MOVE "plain" TO F-NAME. PERFORM MAKE-ONE.
           MOVE "STAFF" TO F-NAME. PERFORM MAKE-ONE.
           MOVE "STOCK" TO F-NAME. PERFORM MAKE-ONE.
           MOVE "LEDGER" TO F-NAME. PERFORM MAKE-ONE.
           MOVE "with.dot" TO F-NAME. PERFORM MAKE-ONE.
           MOVE "YEAR/jan" TO F-NAME. PERFORM MAKE-ONE.
           MOVE "$YEAR/feb" TO F-NAME. PERFORM MAKE-ONE.
           MOVE "$NO_YEAR/mar" TO F-NAME. PERFORM MAKE-ONE.
           MOVE "sub/apr" TO F-NAME. PERFORM MAKE-ONE.
           MOVE "plain" TO F-NAME. PERFORM READ-ONE.
           MOVE "YEAR/jan" TO F-NAME. PERFORM READ-ONE.
           MOVE "absent" TO F-NAME. OPEN INPUT F.
           DISPLAY "OPEN INPUT " F-NAME " " ST.
           MOVE "STAFF" TO F-NAME. PERFORM READ-ONE.
           STOP RUN.
       MAKE-ONE.
           OPEN OUTPUT F. DISPLAY "OPEN OUTPUT " F-NAME " " ST.
           MOVE F-NAME TO F-KEY. WRITE F-RECORD.
           CLOSE F.
       READ-ONE.
           OPEN INPUT F. DISPLAY "OPEN INPUT " F-NAME " " ST.
           READ F NEXT. DISPLAY "READ " F-RECORD " " ST.
           CLOSE F.
