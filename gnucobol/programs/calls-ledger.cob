      *> A program without files, which calls one that has them.
       IDENTIFICATION DIVISION.
       PROGRAM-ID. CALLS-LEDGER.
       PROCEDURE DIVISION.
       MAIN-LINE.
           CALL "LEDGER".
           STOP RUN.
