*> Writes the lines of a file, of 100 bytes each, as records into a new indexed file: load LINES
identification division.
program-id. load.
environment division.
input-output section.
file-control.
    select loaded-file assign to "loaded.dat"
        organization indexed access sequential
        record key number-key
        alternate record key other-key
        alternate record key group-key with duplicates
        file status is loaded-status.
    select lines-file assign to lines-name
        organization line sequential
        file status is lines-status.
data division.
file section.
fd loaded-file.
01 loaded.
    05 number-key pic 9(8).
    05 other-key pic 9(8).
    05 group-key pic 9(4).
    05 rest-of-record pic x(80).
fd lines-file.
01 one-line pic x(100).
working-storage section.
01 loaded-status pic xx.
01 lines-status pic xx.
01 lines-name pic x(200).
procedure division.
main-section.
    accept lines-name from argument-value
    open input lines-file
    open output loaded-file
    perform until lines-status not = "00"
        read lines-file
            at end continue
            not at end perform one-record
        end-read
    end-perform
    close lines-file loaded-file
    stop run.
one-record.
    move one-line to loaded
    write loaded
    if loaded-status not = "00" and not = "02"
        display loaded-status
        stop run returning 1
    end-if.
