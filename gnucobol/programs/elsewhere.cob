      *> Records are written, and then another thread of the process is
      *> sent the signal that ends it.
       IDENTIFICATION DIVISION.
       PROGRAM-ID. ELSEWHERE.
       ENVIRONMENT DIVISION.
       INPUT-OUTPUT SECTION.
       FILE-CONTROL.
           SELECT F ASSIGN TO "f.dat" ORGANIZATION IS INDEXED
               ACCESS MODE IS DYNAMIC RECORD KEY IS F-NUMBER
               FILE STATUS IS ST.
       DATA DIVISION.
       FILE SECTION.
       FD F.
       01 F-RECORD.
           05 F-NUMBER PIC 9(5).
           05 F-TEXT PIC X(15).
       WORKING-STORAGE SECTION.
       77 ST PIC XX.
       PROCEDURE DIVISION.
       MAIN-LINE.
           OPEN OUTPUT F.
           MOVE SPACES TO F-RECORD.
           PERFORM VARYING F-NUMBER FROM 1 BY 1 UNTIL F-NUMBER > 10
               WRITE F-RECORD
           END-PERFORM.
           CALL "end_by_another_thread".
           DISPLAY "not ended".
           STOP RUN.
