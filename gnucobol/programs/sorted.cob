      *> SORT and MERGE with USING and GIVING of indexed files.
       IDENTIFICATION DIVISION.
       PROGRAM-ID. SORTED.
       ENVIRONMENT DIVISION.
       INPUT-OUTPUT SECTION.
       FILE-CONTROL.
           SELECT A ASSIGN TO "a.dat" ORGANIZATION IS INDEXED
               ACCESS MODE IS DYNAMIC RECORD KEY IS A-KEY
               FILE STATUS IS ST-A.
           SELECT B ASSIGN TO "b.dat" ORGANIZATION IS INDEXED
               ACCESS MODE IS SEQUENTIAL RECORD KEY IS B-KEY
               ALTERNATE RECORD KEY IS B-NUMBER
               FILE STATUS IS ST-B.
           SELECT C ASSIGN TO "c.dat" ORGANIZATION IS INDEXED
               ACCESS MODE IS SEQUENTIAL RECORD KEY IS C-KEY
               FILE STATUS IS ST-C.
           SELECT GONE ASSIGN TO "absent.dat"
               ORGANIZATION IS INDEXED ACCESS MODE IS SEQUENTIAL
               RECORD KEY IS GONE-KEY FILE STATUS IS ST-A.
           SELECT L ASSIGN TO "l.txt" ORGANIZATION IS LINE SEQUENTIAL.
           SELECT W ASSIGN TO "w.tmp".
       DATA DIVISION.
       FILE SECTION.
       FD A.
       01 A-RECORD.
           05 A-KEY PIC 9(4).
           05 A-NAME PIC X(6).
       FD B.
       01 B-RECORD.
           05 B-NUMBER PIC 9(4).
           05 B-KEY PIC X(6).
       FD C.
       01 C-RECORD.
           05 C-KEY PIC 9(4).
           05 C-NAME PIC X(6).
       FD GONE.
       01 GONE-RECORD.
           05 GONE-KEY PIC 9(4).
           05 FILLER PIC X(6).
       FD L.
       01 L-RECORD PIC X(10).
       SD W.
       01 W-RECORD.
           05 W-NUMBER PIC 9(4).
           05 W-NAME PIC X(6).
       WORKING-STORAGE SECTION.
       77 ST-A PIC XX.
       77 ST-B PIC XX.
       77 ST-C PIC XX.
       77 N PIC 9(4).
       77 M PIC 99.
       PROCEDURE DIVISION.
       MAIN-LINE.
           OPEN OUTPUT A.
           PERFORM VARYING N FROM 1 BY 1 UNTIL N > 10
               MOVE N TO A-KEY
               MOVE "NAME" TO A-NAME
               COMPUTE M = FUNCTION MOD (N * 7 11)
               MOVE M TO A-NAME (5:2)
               WRITE A-RECORD
           END-PERFORM.
           CLOSE A.
           SORT W ON ASCENDING KEY W-NAME USING A GIVING B.
           DISPLAY "SORT " SORT-RETURN " " ST-A " " ST-B.
           PERFORM LIST-B.
      *> By a key that is not the prime one of the file.
           SORT W ON DESCENDING KEY W-NUMBER USING A GIVING C.
           DISPLAY "SORT DESCENDING " SORT-RETURN.
           SORT W ON ASCENDING KEY W-NUMBER USING GONE GIVING C.
           DISPLAY "SORT OF AN ABSENT FILE " SORT-RETURN.
           SORT W ON ASCENDING KEY W-NUMBER USING B GIVING C L.
           DISPLAY "SORT TO TWO FILES " SORT-RETURN " " ST-C.
           PERFORM LIST-C.
           PERFORM LIST-L.
           MERGE W ON ASCENDING KEY W-NUMBER USING A C GIVING L.
           DISPLAY "MERGE " SORT-RETURN.
           PERFORM LIST-L.
           STOP RUN.
       LIST-B.
           OPEN INPUT B. DISPLAY "OPEN B " ST-B.
           PERFORM UNTIL ST-B NOT = "00"
               READ B NEXT NOT AT END DISPLAY B-RECORD END-READ
           END-PERFORM.
           CLOSE B.
       LIST-C.
           OPEN INPUT C. DISPLAY "OPEN C " ST-C.
           PERFORM UNTIL ST-C NOT = "00"
               READ C NEXT NOT AT END DISPLAY C-RECORD END-READ
           END-PERFORM.
           CLOSE C.
       LIST-L.
           MOVE 0 TO N. OPEN INPUT L.
           PERFORM UNTIL N = 9999
               READ L AT END MOVE 9999 TO N
                   NOT AT END DISPLAY "L " L-RECORD
               END-READ
           END-PERFORM.
           CLOSE L.
