/* The words for a status, as `cobix explain status` has them in full, and for what is no status. */
#include "cobix.h"

static const struct {
    int answer;
    const char *words;
} messages[] = {
    {COBIX_DONE, "done"},
    {COBIX_DUPLICATE, "done; another record has the same value of a key with duplicates"},
    {COBIX_NEW_OPTIONAL, "done; the optional file was not there"},
    {COBIX_END, "no next record"},
    {COBIX_SEQUENCE, "the prime key is out of order, or was changed"},
    {COBIX_CLASH, "a key without duplicates has this value already"},
    {COBIX_NOT_FOUND, "no such record"},
    {COBIX_FULL, "no room is left for the file"},
    {COBIX_FAULT, "the device failed, or another run has the file"},
    {COBIX_NO_FILE, "no such file"},
    {COBIX_WAS_LOCKED, "the file was closed with lock"},
    {COBIX_OTHER_ATTRIBUTES, "the file has other lengths or keys than its description"},
    {COBIX_OPEN_ALREADY, "the file is open already"},
    {COBIX_NOT_OPEN, "the file is not open"},
    {COBIX_NOT_READ, "no record was read before"},
    {COBIX_LENGTH, "no record of this file may have this length"},
    {COBIX_NO_POSITION, "there is no valid position in the file"},
    {COBIX_NOT_FOR_READING, "the file is not open for reading"},
    {COBIX_NOT_FOR_WRITING, "the file is not open for writing"},
    {COBIX_NOT_FOR_UPDATING, "the file is not open I-O"},
    {COBIX_MEMORY, "memory ran out"},
    {COBIX_UNSOUND, "the file was not closed when it was last changed, or is no file of cobix"},
    {COBIX_FAILED_BEFORE, "an earlier verb on the file failed"},
    {COBIX_MISUSE, "a wrong call: a pointer is NULL, a number is out of its range, or another call is on its way"},
    {COBIX_FORKED, "the session is that of the parent process"},
    {COBIX_NO_FOLDER, "no such folder"},
    {COBIX_NO_MEMORY, "memory ran out"},
    {COBIX_ENDED, "the process is at its end"},
    {COBIX_MANY, "the session has 64 files"},
    {COBIX_DESCRIPTION, "no file can have this name, these lengths or these keys"},
    {COBIX_NAME_TAKEN, "another file of the session has this name"},
    {COBIX_FILE_IS_OPEN, "the file is open"},
    {COBIX_NO_SUCH_KEY, "the file has no such key"},
};

const char *cobix_message(int answer)
{
    for (unsigned i = 0; i < sizeof messages / sizeof *messages; i++)
        if (messages[i].answer == answer)
            return messages[i].words;
    return "no answer of cobix";
}
