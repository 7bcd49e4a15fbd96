*> The verbs of a file that make_decks wrote, on an indexed file, with a transcript like cobix's.
*> numbers VERBS [none]   with none it reads the verbs alone
identification division.
program-id. numbers.
environment division.
input-output section.
file-control.
    select numbers-file assign to "numbers.dat"
        organization indexed access dynamic
        record key number-key
        alternate record key other-key
        alternate record key group-key with duplicates
        file status is numbers-status.
    select verbs-file assign to verbs-name
        organization line sequential
        file status is verbs-status.
data division.
file section.
fd numbers-file.
01 numbered.
    05 number-key pic 9(8).
    05 other-key pic 9(8).
    05 group-key pic 9(4).
    05 rest-of-record pic x(80).
fd verbs-file.
01 verb.
    05 letter pic x.
    05 three-keys.
        10 eight pic 9(8).
        10 other-eight pic 9(8).
        10 four pic 9(4).
    05 group-alone redefines three-keys.
        10 four-alone pic 9(4).
        10 filler pic x(16).
working-storage section.
01 numbers-status pic xx.
01 verbs-status pic xx.
01 verbs-name pic x(200).
01 how pic x(4).
01 performed pic x value "y".
    88 is-performed value "y".
procedure division.
main-section.
    accept verbs-name from argument-value
    accept how from argument-value
    if how = "none" move "n" to performed end-if
    open input verbs-file
    move spaces to rest-of-record
    perform until verbs-status not = "00"
        read verbs-file
            at end continue
            not at end if is-performed perform one-verb end-if
        end-read
    end-perform
    close verbs-file
    stop run.
one-verb.
    evaluate letter
        when "W"
            move eight to number-key move other-eight to other-key move four to group-key move spaces to rest-of-record
            write numbered
            display "WRITE F " numbers-status
        when "K"
            move eight to number-key
            read numbers-file key is number-key
            perform show-read
        when "L"
            move eight to other-key
            read numbers-file key is other-key
            perform show-read
        when "G"
            move four-alone to group-key
            read numbers-file key is group-key
            perform show-read
        when "N"
            read numbers-file next record
            display "READ NEXT F " numbers-status " [" numbered "]"
        when "S"
            move eight to number-key
            start numbers-file key not less number-key
            display "START F " numbers-status
        when "T"
            move four-alone to group-key
            start numbers-file key not less group-key
            display "START F " numbers-status
        when "X"
            move four-alone to group-key
            rewrite numbered
            display "REWRITE F " numbers-status
        when "D"
            move eight to number-key
            delete numbers-file record
            display "DELETE F " numbers-status
        when other
            perform open-or-close
    end-evaluate.
open-or-close.
    evaluate letter
        when "O" open output numbers-file display "OPEN OUTPUT F " numbers-status
        when "I" open input numbers-file display "OPEN INPUT F " numbers-status
        when "U" open i-o numbers-file display "OPEN I-O F " numbers-status
        when "C" close numbers-file display "CLOSE F " numbers-status
    end-evaluate.
show-read.
    if numbers-status(1:1) = "0"
        display "READ F " numbers-status " [" numbered "]"
    else
        display "READ F " numbers-status
    end-if.
