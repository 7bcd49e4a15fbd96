      *> What is answered when the process cobix is not there or ends.
       IDENTIFICATION DIVISION.
       PROGRAM-ID. ENDED.
       ENVIRONMENT DIVISION.
       INPUT-OUTPUT SECTION.
       FILE-CONTROL.
           SELECT F ASSIGN TO "f.dat" ORGANIZATION IS INDEXED
               ACCESS MODE IS DYNAMIC RECORD KEY IS F-KEY
               FILE STATUS IS ST.
       DATA DIVISION.
       FILE SECTION.
       FD F.
       01 F-RECORD.
           05 F-KEY PIC 9(4).
       WORKING-STORAGE SECTION.
       77 ST PIC XX.
       PROCEDURE DIVISION.
       MAIN-LINE.
           OPEN OUTPUT F. DISPLAY "OPEN OUTPUT " ST.
           PERFORM WRITE-ONE VARYING F-KEY FROM 1 BY 1
               UNTIL F-KEY > 8.
           CLOSE F. DISPLAY "CLOSE " ST.
           OPEN INPUT F. DISPLAY "OPEN INPUT " ST.
           READ F NEXT. DISPLAY "READ " ST.
           STOP RUN.
       WRITE-ONE.
           WRITE F-RECORD. DISPLAY "WRITE " ST.
