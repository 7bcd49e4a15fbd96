      *> Copies an indexed file of GnuCOBOL's own handler into one of
      *> cobix. Adapt it in the two places that are marked.
       IDENTIFICATION DIVISION.
       PROGRAM-ID. CONVERT.
       ENVIRONMENT DIVISION.
       INPUT-OUTPUT SECTION.
       FILE-CONTROL.
      *> Place 1: the names of both files, and their keys. The keys are
      *> the same twice, and so are their places in the records.
           SELECT OLD-FILE ASSIGN TO "old/staff"
               ORGANIZATION IS INDEXED ACCESS MODE IS SEQUENTIAL
               RECORD KEY IS OLD-NUMBER
               ALTERNATE RECORD KEY IS OLD-CITY WITH DUPLICATES
               FILE STATUS IS OLD-STATUS.
      $SET CALLFH "cobixfh"
           SELECT NEW-FILE ASSIGN TO "new/staff"
               ORGANIZATION IS INDEXED ACCESS MODE IS SEQUENTIAL
               RECORD KEY IS NEW-NUMBER
               ALTERNATE RECORD KEY IS NEW-CITY WITH DUPLICATES
               FILE STATUS IS NEW-STATUS.
       DATA DIVISION.
       FILE SECTION.
      *> Place 2: the record, twice. Where records vary, give both FDs
      *> RECORD IS VARYING .. DEPENDING ON RECORD-LENGTH.
       FD OLD-FILE RECORD IS VARYING IN SIZE FROM 10 TO 30 CHARACTERS
           DEPENDING ON RECORD-LENGTH.
       01 OLD-RECORD.
           05 OLD-NUMBER PIC X(4).
           05 OLD-CITY PIC X(6).
           05 FILLER PIC X(20).
       FD NEW-FILE RECORD IS VARYING IN SIZE FROM 10 TO 30 CHARACTERS
           DEPENDING ON RECORD-LENGTH.
       01 NEW-RECORD.
           05 NEW-NUMBER PIC X(4).
           05 NEW-CITY PIC X(6).
           05 FILLER PIC X(20).
      *> Nothing below is to be changed.
       WORKING-STORAGE SECTION.
       77 RECORD-LENGTH PIC 9(4).
       77 OLD-STATUS PIC XX.
       77 NEW-STATUS PIC XX.
       77 RECORDS-READ PIC 9(9) VALUE 0.
       77 RECORDS-WRITTEN PIC 9(9) VALUE 0.
       PROCEDURE DIVISION.
       MAIN-LINE.
           OPEN INPUT OLD-FILE.
           IF OLD-STATUS NOT = "00" PERFORM OLD-FAILED.
           OPEN OUTPUT NEW-FILE.
           IF NEW-STATUS NOT = "00" PERFORM NEW-FAILED.
           PERFORM READ-ONE.
           PERFORM WRITE-ONE UNTIL OLD-STATUS (1:1) NOT = "0".
           IF OLD-STATUS NOT = "10" PERFORM OLD-FAILED.
           CLOSE NEW-FILE.
           IF NEW-STATUS NOT = "00" PERFORM NEW-FAILED.
           CLOSE OLD-FILE.
           DISPLAY RECORDS-READ " records read, "
               RECORDS-WRITTEN " written".
           STOP RUN.
       READ-ONE.
           READ OLD-FILE NEXT RECORD AT END CONTINUE
               NOT AT END ADD 1 TO RECORDS-READ.
       WRITE-ONE.
           MOVE OLD-RECORD TO NEW-RECORD.
           WRITE NEW-RECORD.
           IF NEW-STATUS NOT = "00" AND NEW-STATUS NOT = "02"
               PERFORM NEW-FAILED.
           ADD 1 TO RECORDS-WRITTEN.
           PERFORM READ-ONE.
       OLD-FAILED.
           DISPLAY "the old file answered " OLD-STATUS UPON SYSERR.
           STOP RUN RETURNING 1.
       NEW-FAILED.
           DISPLAY "the new file answered " NEW-STATUS " after "
               RECORDS-WRITTEN " records" UPON SYSERR.
           STOP RUN RETURNING 1.
