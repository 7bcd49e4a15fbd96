      *> Two runs and one file: this program, and a second run of it,
      *> which the first begins by the command in SELF.
       IDENTIFICATION DIVISION.
       PROGRAM-ID. CONFLICT.
       ENVIRONMENT DIVISION.
       INPUT-OUTPUT SECTION.
       FILE-CONTROL.
           SELECT F ASSIGN TO "f.dat" ORGANIZATION IS INDEXED
               ACCESS MODE IS DYNAMIC RECORD KEY IS F-KEY
               FILE STATUS IS ST.
       DATA DIVISION.
       FILE SECTION.
       FD F.
       01 F-RECORD.
           05 F-KEY PIC X.
       WORKING-STORAGE SECTION.
       77 ST PIC XX.
       77 WORD PIC X(10) VALUE SPACES.
       PROCEDURE DIVISION.
       MAIN-LINE.
           ACCEPT WORD FROM COMMAND-LINE.
           IF WORD = "second" PERFORM SECOND-RUN STOP RUN.
           OPEN OUTPUT F.
           MOVE "1" TO F-KEY. WRITE F-RECORD.
           DISPLAY "FIRST WRITE " ST.
           CALL "SYSTEM" USING "$SELF second".
           CLOSE F. DISPLAY "FIRST CLOSE " ST.
           OPEN INPUT F.
           READ F NEXT. DISPLAY "FIRST READ " ST.
           CALL "SYSTEM" USING "$SELF second".
           CLOSE F. DISPLAY "FIRST CLOSE " ST.
           CALL "SYSTEM" USING "$SELF second".
           STOP RUN.
       SECOND-RUN.
           OPEN INPUT F. DISPLAY "    OPEN INPUT " ST.
           CLOSE F.
           OPEN I-O F. DISPLAY "    OPEN I-O " ST.
           MOVE "2" TO F-KEY. WRITE F-RECORD.
           DISPLAY "    WRITE " ST.
           DELETE F. DISPLAY "    DELETE " ST.
           CLOSE F. DISPLAY "    CLOSE " ST.
