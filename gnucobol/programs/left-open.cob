      *> Ends in one of four ways, with a file open that it has changed.
       IDENTIFICATION DIVISION.
       PROGRAM-ID. LEFT-OPEN.
       ENVIRONMENT DIVISION.
       INPUT-OUTPUT SECTION.
       FILE-CONTROL.
           SELECT F ASSIGN TO "f.dat" ORGANIZATION IS INDEXED
               ACCESS MODE IS DYNAMIC RECORD KEY IS F-NUMBER
               FILE STATUS IS ST.
       DATA DIVISION.
       FILE SECTION.
       FD F.
       01 F-RECORD.
           05 F-NUMBER PIC 9(5).
           05 F-TEXT PIC X(15).
       WORKING-STORAGE SECTION.
       77 ST PIC XX.
       77 HOW PIC X(8).
       77 N PIC 9(5).
       PROCEDURE DIVISION.
       MAIN-LINE.
           ACCEPT HOW FROM ENVIRONMENT "HOW".
           OPEN OUTPUT F.
           PERFORM VARYING N FROM 1 BY 1 UNTIL N > 10
               MOVE SPACES TO F-RECORD
               MOVE N TO F-NUMBER
               WRITE F-RECORD
           END-PERFORM.
           DISPLAY "WRITE " ST.
           EVALUATE HOW
               WHEN "stop" STOP RUN
               WHEN "goback" GOBACK
               WHEN "exit" CALL "exit" USING BY VALUE 0
               WHEN "error" CALL "NO-SUCH-PROGRAM"
           END-EVALUATE.
           DISPLAY "NOT ENDED".
