      *> Performs the verbs that verbs.awk has drawn, a line each, on
      *> one file, and writes a transcript as cobix run does.
       IDENTIFICATION DIVISION.
       PROGRAM-ID. RANDOM-VERBS.
       ENVIRONMENT DIVISION.
       INPUT-OUTPUT SECTION.
       FILE-CONTROL.
           SELECT VERBS ASSIGN TO "verbs" LINE SEQUENTIAL.
           SELECT F ASSIGN TO "f.dat" ORGANIZATION IS INDEXED
      >>IF SEQUENTIAL IS DEFINED
               ACCESS MODE IS SEQUENTIAL
      >>ELIF RANDOM IS DEFINED
               ACCESS MODE IS RANDOM
      >>ELSE
               ACCESS MODE IS DYNAMIC
      >>END-IF
               RECORD KEY IS F-KEY
               ALTERNATE RECORD KEY IS F-UNIQUE
               ALTERNATE RECORD KEY IS F-GROUP WITH DUPLICATES
               FILE STATUS IS ST.
       DATA DIVISION.
       FILE SECTION.
       FD VERBS.
       01 VERB.
           05 VERB-CODE PIC XX.
           05 VERB-LENGTH PIC 99.
           05 VERB-RECORD PIC X(14).
       FD F RECORD IS VARYING IN SIZE FROM 7 TO 14 CHARACTERS
           DEPENDING ON F-LENGTH.
       01 F-RECORD.
           05 F-KEY.
               10 F-KEY-1 PIC X.
               10 F-KEY-2 PIC X.
           05 F-GROUP PIC X.
           05 F-UNIQUE.
               10 F-UNIQUE-1 PIC X.
               10 F-UNIQUE-2 PIC X.
           05 F-TEXT PIC X(9).
       WORKING-STORAGE SECTION.
       77 ST PIC XX.
       77 F-LENGTH PIC 99 VALUE 0.
       77 ENDED PIC 9 VALUE 0.
       77 SHOWN PIC X(12).
       PROCEDURE DIVISION.
       MAIN-LINE.
           OPEN INPUT VERBS.
           PERFORM ONE-VERB UNTIL ENDED = 1.
           CLOSE VERBS.
           STOP RUN.
       ONE-VERB.
           READ VERBS AT END MOVE 1 TO ENDED
               NOT AT END PERFORM SET-RECORD PERFORM DO-VERB
                   PERFORM SHOW-VERB.
       SET-RECORD.
           IF VERB-RECORD NOT = SPACES MOVE VERB-RECORD TO F-RECORD.
           MOVE VERB-LENGTH TO F-LENGTH.
       DO-VERB.
           EVALUATE VERB-CODE
             WHEN "OI" MOVE "OPEN INPUT" TO SHOWN OPEN INPUT F
             WHEN "OO" MOVE "OPEN OUTPUT" TO SHOWN OPEN OUTPUT F
             WHEN "OB" MOVE "OPEN I-O" TO SHOWN OPEN I-O F
      >>IF SEQUENTIAL IS DEFINED
             WHEN "OE" MOVE "OPEN EXTEND" TO SHOWN OPEN EXTEND F
      >>END-IF
             WHEN "CL" MOVE "CLOSE" TO SHOWN CLOSE F
             WHEN "CW" MOVE "CLOSE" TO SHOWN CLOSE F WITH LOCK
             WHEN "WR" MOVE "WRITE" TO SHOWN WRITE F-RECORD
             WHEN "RW" MOVE "REWRITE" TO SHOWN REWRITE F-RECORD
             WHEN "DE" MOVE "DELETE" TO SHOWN DELETE F
      >>IF RANDOM IS NOT DEFINED
             WHEN "RN" MOVE "READ NEXT" TO SHOWN READ F NEXT
             WHEN "1=" MOVE "START" TO SHOWN
                 START F KEY = F-KEY
             WHEN "1>" MOVE "START" TO SHOWN
                 START F KEY > F-KEY
             WHEN "1N" MOVE "START" TO SHOWN
                 START F KEY NOT < F-KEY
             WHEN "2=" MOVE "START" TO SHOWN
                 START F KEY = F-KEY-1
             WHEN "2>" MOVE "START" TO SHOWN
                 START F KEY > F-KEY-1
             WHEN "2N" MOVE "START" TO SHOWN
                 START F KEY NOT < F-KEY-1
             WHEN "3=" MOVE "START" TO SHOWN
                 START F KEY = F-GROUP
             WHEN "3>" MOVE "START" TO SHOWN
                 START F KEY > F-GROUP
             WHEN "3N" MOVE "START" TO SHOWN
                 START F KEY NOT < F-GROUP
             WHEN "4=" MOVE "START" TO SHOWN
                 START F KEY = F-UNIQUE
             WHEN "4>" MOVE "START" TO SHOWN
                 START F KEY > F-UNIQUE-1
             WHEN "4N" MOVE "START" TO SHOWN
                 START F KEY NOT < F-UNIQUE-1
      >>END-IF
      >>IF SEQUENTIAL IS NOT DEFINED
             WHEN "RK" MOVE "READ" TO SHOWN READ F
             WHEN "RG" MOVE "READ" TO SHOWN READ F KEY IS F-GROUP
             WHEN "RU" MOVE "READ" TO SHOWN READ F KEY IS F-UNIQUE
      >>END-IF
             WHEN OTHER DISPLAY "no verb " VERB-CODE
           END-EVALUATE.
       SHOW-VERB.
           IF SHOWN (1:4) = "READ" AND ST (1:1) = "0"
               DISPLAY FUNCTION TRIM (SHOWN) " F " ST
                   " [" F-RECORD (1:F-LENGTH) "]"
           ELSE DISPLAY FUNCTION TRIM (SHOWN) " F " ST.
