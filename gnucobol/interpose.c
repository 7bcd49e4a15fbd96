/* Functions that stand before those of GnuCOBOL of the same names, which reach files past their handler. */
#define _GNU_SOURCE
#include "handler.h"
#include <dlfcn.h>
#include <stdarg.h>
#include <stdio.h>
#include <string.h>
#include <unistd.h>

#define BEHIND(function) ((__typeof__(&function))(uintptr_t)dlsym(RTLD_NEXT, #function))

/* Answers a verb. */
static void tell(cob_file *file, cob_field *status, const char *digits, int exception)
{
    cob_get_global_ptr()->cob_error_file = file;
    cob_set_exception(exception);
    if (file->file_status)
        memcpy(file->file_status, digits, 2);
    if (status)
        memcpy(status->data, digits, 2);
}

/* Answers a verb on a file that this handler has open. Whether it has. */
static bool answers(cob_file *file, cob_field *status, const char *digits, int exception)
{
    bool has = cobixfh_has_open(file);
    if (has)
        tell(file, status, digits, exception);
    return has;
}

/* ---- what SORT and MERGE do: USING and GIVING open, read, write and close a file past its handler */

static bool sorts;             /* one of them is on its way */
static int *sort_return;       /* SORT-RETURN of the last SORT or MERGE that began, which is set to 16 where it fails */
static cob_file *not_ours[64]; /* indexed files that the program has opened by GnuCOBOL's own handler */
static unsigned not_ours_count;

static bool is_not_ours(const cob_file *file)
{
    unsigned i = 0;
    while (i < not_ours_count && not_ours[i] != file)
        i++;
    return i < not_ours_count;
}

/* Whether a verb is one of SORT or MERGE on a file of cobix: an indexed file that was not opened by GnuCOBOL's own handler before. */
static bool is_sorted(const cob_file *file)
{
    return sorts && file->organization == COB_ORG_INDEXED && (cobixfh_knows(file) || !is_not_ours(file));
}

/* A verb of SORT or MERGE on a file of cobix that failed. */
static void tell_sort(const cob_file *file, const char *verb)
{
    const unsigned char *status = file->file_status;
    if (status[0] == '0' || (status[0] == '1' && status[1] == '0'))
        return;
    if (!sort_return || *sort_return != 16)
        fprintf(stderr, "cobix: SORT or MERGE, %s of SELECT %s: answered %.2s\n", verb, file->select_name, (const char *)status);
    if (sort_return)
        *sort_return = 16;
}

void cob_file_sort_init(cob_file *file, const unsigned keys, const unsigned char *collating, void *returned, cob_field *status)
{
    sort_return = returned;
    BEHIND(cob_file_sort_init)(file, keys, collating, returned, status);
}

void cob_file_sort_using(cob_file *sorted, cob_file *file)
{
    sorts = true;
    BEHIND(cob_file_sort_using)(sorted, file);
    sorts = false;
}

/* GIVING of up to eight files. */
void cob_file_sort_giving(cob_file *sorted, const size_t count, ...)
{
    __typeof__(&cob_file_sort_giving) behind = BEHIND(cob_file_sort_giving);
    cob_file *f[8] = {NULL};
    va_list files;
    va_start(files, count);
    for (size_t i = 0; i < count && i < 8; i++)
        f[i] = va_arg(files, cob_file *);
    va_end(files);
    sorts = true;
    if (count <= 8)
        behind(sorted, count, f[0], f[1], f[2], f[3], f[4], f[5], f[6], f[7]);
    else
        fprintf(stderr, "cobix: SORT or MERGE, GIVING: more than 8 files\n");
    if (count > 8 && sort_return)
        *sort_return = 16;
    sorts = false;
}

void cob_open(cob_file *file, const int mode, const int sharing, cob_field *status)
{
    if (is_sorted(file)) {
        cob_extfh_open(cobixfh, file, mode, sharing, status);
        tell_sort(file, "OPEN");
        return;
    }
    if (file->organization == COB_ORG_INDEXED && !is_not_ours(file) && not_ours_count < 64)
        not_ours[not_ours_count++] = file;
    BEHIND(cob_open)(file, mode, sharing, status);
}

void cob_read_next(cob_file *file, cob_field *status, const int how)
{
    if (!is_sorted(file)) {
        BEHIND(cob_read_next)(file, status, how);
        return;
    }
    cob_extfh_read_next(cobixfh, file, status, how);
    tell_sort(file, "READ");
}

void cob_write(cob_file *file, cob_field *record, const int how, cob_field *status, const unsigned end_of_page)
{
    if (!is_sorted(file)) {
        BEHIND(cob_write)(file, record, how, status, end_of_page);
        return;
    }
    cob_extfh_write(cobixfh, file, record, how, status, end_of_page);
    tell_sort(file, "WRITE");
}

/* ---- verbs */

/* OPEN. GnuCOBOL does not tell its handler which file a call is of. */
void cob_extfh_open(int (*handler)(unsigned char *, FCD3 *), cob_file *file, const int mode, const int sharing, cob_field *status)
{
    cobixfh_opens(file);
    BEHIND(cob_extfh_open)(handler, file, mode, sharing, status);
}

/* CLOSE of a SORT, and CANCEL of a program that has the file. */
void cob_close(cob_file *file, cob_field *status, const int how, const int remove)
{
    if (is_sorted(file)) {
        cob_extfh_close(cobixfh, file, status, how, remove);
        tell_sort(file, "CLOSE");
    } else if (!cobixfh_leaves(file))
        BEHIND(cob_close)(file, status, how, remove);
}

void cob_unlock_file(cob_file *file, cob_field *status)
{
    if (!answers(file, status, "00", 0))
        BEHIND(cob_unlock_file)(file, status);
}

/* DELETE FILE. GnuCOBOL also looks for its own files of the alternates, which cobix does not have, and then answers 35. */
void cob_delete_file(cob_file *file, cob_field *status)
{
    char path[PATH];
    if (answers(file, status, "41", COB_EC_I_O_LOGIC_ERROR))
        return;
    bool was_there = file->assign && path_of((char *)file->assign->data, file->assign->size, path) && access(path, F_OK) == 0;
    BEHIND(cob_delete_file)(file, status);
    if (file->organization == COB_ORG_INDEXED && was_there && access(path, F_OK) && memcmp(file->file_status, "35", 2) == 0)
        tell(file, status, "00", 0);
}

void cob_rollback(void)
{
    fprintf(stderr, "cobix: ROLLBACK: the COBOL of 1985 does not have it, and nothing is undone\n");
    BEHIND(cob_rollback)();
}
