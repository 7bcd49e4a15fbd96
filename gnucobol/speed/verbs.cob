      *> 100,000 records of 100 bytes, one alternate with duplicates:
      *> each verb over all of them, and how long it took.
       IDENTIFICATION DIVISION.
       PROGRAM-ID. SPEED.
       ENVIRONMENT DIVISION.
       INPUT-OUTPUT SECTION.
       FILE-CONTROL.
           SELECT F ASSIGN TO "speed.dat" ORGANIZATION IS INDEXED
               ACCESS MODE IS DYNAMIC RECORD KEY IS F-NUMBER
               ALTERNATE RECORD KEY IS F-GROUP WITH DUPLICATES
               FILE STATUS IS ST.
       DATA DIVISION.
       FILE SECTION.
       FD F.
       01 F-RECORD.
           05 F-NUMBER PIC 9(10).
           05 F-GROUP PIC 9(6).
           05 F-TEXT PIC X(84).
       WORKING-STORAGE SECTION.
       77 ST PIC XX.
       77 I PIC 9(9) COMP-5.
       77 WELL PIC 9(9) COMP-5.
       77 HOW-MANY PIC 9(9) COMP-5 VALUE 100000.
       77 ARGUMENT PIC X(9).
       77 WHAT PIC X(10).
       01 CLOCK.
           05 HOURS PIC 99.
           05 MINUTES PIC 99.
           05 SECONDS PIC 99.
           05 HUNDREDTHS PIC 99.
       77 BEFORE-IT PIC 9(9) COMP-5.
       77 AFTER-IT PIC 9(9) COMP-5.
       77 TOOK PIC Z(5)9.
       PROCEDURE DIVISION.
       MAIN-LINE.
           ACCEPT ARGUMENT FROM COMMAND-LINE.
           IF ARGUMENT NOT = SPACES
               COMPUTE HOW-MANY = FUNCTION NUMVAL (ARGUMENT).
           MOVE ALL "x" TO F-TEXT.
           PERFORM START-CLOCK.
           OPEN OUTPUT F.
           PERFORM VARYING I FROM 0 BY 1 UNTIL I >= HOW-MANY
               COMPUTE F-NUMBER = FUNCTION MOD (I * 7919 HOW-MANY)
               COMPUTE F-GROUP = FUNCTION MOD (I HOW-MANY / 20)
               WRITE F-RECORD
               PERFORM COUNT-IT
           END-PERFORM.
           CLOSE F.
           MOVE "WRITE" TO WHAT. PERFORM STOP-CLOCK.
           OPEN I-O F.
           PERFORM VARYING I FROM 0 BY 1 UNTIL I >= HOW-MANY
               COMPUTE F-NUMBER = FUNCTION MOD (I * 104729 HOW-MANY)
               READ F
               PERFORM COUNT-IT
           END-PERFORM.
           MOVE "READ" TO WHAT. PERFORM STOP-CLOCK.
           MOVE 0 TO F-NUMBER.
           START F KEY IS NOT LESS THAN F-NUMBER.
           PERFORM VARYING I FROM 0 BY 1 UNTIL I >= HOW-MANY
               READ F NEXT
               PERFORM COUNT-IT
           END-PERFORM.
           MOVE "NEXT, I-O" TO WHAT. PERFORM STOP-CLOCK.
           CLOSE F.
           OPEN INPUT F.
           PERFORM VARYING I FROM 0 BY 1 UNTIL I >= HOW-MANY
               READ F NEXT
               PERFORM COUNT-IT
           END-PERFORM.
           MOVE "READ NEXT" TO WHAT. PERFORM STOP-CLOCK.
           CLOSE F.
           OPEN I-O F.
           PERFORM VARYING I FROM 0 BY 1 UNTIL I >= HOW-MANY
               COMPUTE F-NUMBER = FUNCTION MOD (I * 6271 HOW-MANY)
               COMPUTE F-GROUP = FUNCTION MOD (I * 3 HOW-MANY / 20)
               REWRITE F-RECORD
               PERFORM COUNT-IT
           END-PERFORM.
           MOVE "REWRITE" TO WHAT. PERFORM STOP-CLOCK.
           PERFORM VARYING I FROM 0 BY 1 UNTIL I >= HOW-MANY
               COMPUTE F-NUMBER = FUNCTION MOD (I * 7001 HOW-MANY)
               DELETE F
               PERFORM COUNT-IT
           END-PERFORM.
           CLOSE F.
           MOVE "DELETE" TO WHAT. PERFORM STOP-CLOCK.
           STOP RUN.
       COUNT-IT.
           IF ST (1:1) = "0" ADD 1 TO WELL.
       READ-CLOCK.
           ACCEPT CLOCK FROM TIME.
           COMPUTE AFTER-IT = HUNDREDTHS + 100 * (SECONDS
               + 60 * (MINUTES + 60 * HOURS)).
       START-CLOCK.
           PERFORM READ-CLOCK.
           MOVE AFTER-IT TO BEFORE-IT.
           MOVE 0 TO WELL.
       STOP-CLOCK.
           PERFORM READ-CLOCK.
           COMPUTE TOOK = (AFTER-IT - BEFORE-IT) * 10.
           DISPLAY WHAT TOOK " ms, " WELL " done".
           PERFORM START-CLOCK.
