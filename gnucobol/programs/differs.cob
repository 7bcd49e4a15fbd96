      *> Cases that GnuCOBOL's own handler answers otherwise.
       IDENTIFICATION DIVISION.
       PROGRAM-ID. DIFFERS.
       ENVIRONMENT DIVISION.
       INPUT-OUTPUT SECTION.
       FILE-CONTROL.
           SELECT F ASSIGN TO "f.dat" ORGANIZATION IS INDEXED
               ACCESS MODE IS DYNAMIC RECORD KEY IS F-KEY
               ALTERNATE RECORD KEY IS F-NAME
               FILE STATUS IS ST.
           SELECT OPTIONAL G ASSIGN TO "absent.dat"
               ORGANIZATION IS INDEXED ACCESS MODE IS DYNAMIC
               RECORD KEY IS G-KEY FILE STATUS IS ST.
           SELECT H ASSIGN TO "h.dat" ORGANIZATION IS INDEXED
               ACCESS MODE IS DYNAMIC RECORD KEY IS H-KEY
               FILE STATUS IS ST.
       DATA DIVISION.
       FILE SECTION.
       FD F RECORD IS VARYING IN SIZE FROM 5 TO 9 CHARACTERS
           DEPENDING ON F-LENGTH.
       01 F-RECORD.
           05 F-KEY PIC X.
           05 F-NAME PIC X(4).
           05 F-TEXT PIC X(4).
       FD G.
       01 G-RECORD.
           05 G-KEY PIC X.
       FD H.
       01 H-LONG.
           05 H-KEY PIC X.
           05 H-TEXT PIC X(9).
       01 H-SHORT.
           05 FILLER PIC X(3).
       WORKING-STORAGE SECTION.
       77 ST PIC XX.
       77 F-LENGTH PIC 9.
       PROCEDURE DIVISION.
       MAIN-LINE.
           OPEN OUTPUT F.
           MOVE 9 TO F-LENGTH. MOVE "1ANNAtext" TO F-RECORD.
           WRITE F-RECORD. DISPLAY "WRITE " ST.
           MOVE 9 TO F-LENGTH. MOVE "2BERTtext" TO F-RECORD.
           WRITE F-RECORD. DISPLAY "WRITE " ST.
           CLOSE F. OPEN I-O F.
           MOVE 9 TO F-LENGTH. MOVE "3ANNAtext" TO F-RECORD.
           REWRITE F-RECORD INVALID KEY DISPLAY "INVALID KEY".
           DISPLAY "REWRITE OF NONE THAT CLASHES " ST.
           MOVE 5 TO F-LENGTH. MOVE "2CARL" TO F-RECORD.
           REWRITE F-RECORD. DISPLAY "REWRITE, SHORTER " ST.
           MOVE "2" TO F-KEY. MOVE 0 TO F-LENGTH.
           READ F. DISPLAY "READ " ST " LENGTH " F-LENGTH.
           CLOSE F.
           OPEN INPUT G. DISPLAY "OPEN INPUT OF AN ABSENT FILE " ST.
           MOVE "1" TO G-KEY.
           READ G INVALID KEY DISPLAY "INVALID KEY".
           DISPLAY "READ " ST.
           CLOSE G.
      *> A record of another length by its own description.
           OPEN OUTPUT H.
           MOVE "1abcdefghi" TO H-LONG. WRITE H-LONG.
           CLOSE H. OPEN I-O H.
           MOVE "1xyz" TO H-LONG. REWRITE H-SHORT.
           DISPLAY "REWRITE OF THE SHORT RECORD " ST.
           MOVE ALL "-" TO H-LONG. MOVE "1" TO H-KEY.
           READ H. DISPLAY "READ " ST " [" H-LONG "]".
           CLOSE H.
           STOP RUN.
