/* The handler: from an FCD to a frame and back. */
#define _GNU_SOURCE
#include "handler.h"
#include <errno.h>
#include <stdio.h>
#include <stdlib.h>
#include <string.h>

enum { KEYS = 9, MOST_REFUSED = 100 };
enum { DESCRIBE = 1, PERFORM = 2, RELEASE = 3 };                             /* kinds of frames */
enum { NO_SUCH_FILE = 4, FILE_IS_OPEN = 6, NO_MEMORY = 7 };                 /* why a request is refused */
enum { OPEN, CLOSE, READ_NEXT, READ, START, WRITE, REWRITE, DELETE, NO_EFFECT, REFUSED };
enum { GREATER = 1 }; /* of START */

struct verb {
    int code; /* GnuCOBOL's */
    uint8_t verb, operand;
    const char *name;
};

static const struct verb verbs[] = {
    {OP_READ_SEQ, READ_NEXT, 0, "READ NEXT"},          {OP_READ_RAN, READ, 0, "READ"},
    {OP_WRITE, WRITE, 0, "WRITE"},                     {OP_REWRITE, REWRITE, 0, "REWRITE"},
    {OP_DELETE, DELETE, 0, "DELETE"},                  {OP_START_EQ, START, 0, "START"},
    {OP_START_GT, START, 1, "START"},                  {OP_START_GE, START, 2, "START"},
    {OP_OPEN_INPUT, OPEN, 0, "OPEN INPUT"},            {OP_OPEN_OUTPUT, OPEN, 1, "OPEN OUTPUT"},
    {OP_OPEN_IO, OPEN, 2, "OPEN I-O"},                 {OP_OPEN_EXTEND, OPEN, 3, "OPEN EXTEND"},
    {OP_CLOSE, CLOSE, 0, "CLOSE"},                     {OP_CLOSE_LOCK, CLOSE, 1, "CLOSE"},
    {OP_UNLOCK, NO_EFFECT, 0, "UNLOCK"},               {OP_UNLOCK_REC, NO_EFFECT, 0, "UNLOCK"},
    {OP_COMMIT, NO_EFFECT, 0, "COMMIT"},               {OP_FLUSH, NO_EFFECT, 0, "flush"},
    {OP_ROLLBACK, REFUSED, 0, "ROLLBACK"},             {OP_READ_PREV, REFUSED, 0, "READ PREVIOUS"},
    {OP_START_LT, REFUSED, 0, "START LESS"},           {OP_START_LE, REFUSED, 0, "START NOT GREATER"},
    {OP_START_FI, REFUSED, 0, "START FIRST"},          {OP_START_LA, REFUSED, 0, "START LAST"},
    {0, REFUSED, 0, "a verb"},
};

enum mode { INPUT, OUTPUT, IO, EXTEND };

/* A file connector. It is described to its process from an OPEN that succeeds to the CLOSE, and for good where that is WITH LOCK. */
struct connector {
    struct connector *next;
    unsigned char *area; /* the record area, which tells it from others while GnuCOBOL has no FCD of it */
    FCD3 *fcd;           /* NULL before its first verb and after CLOSE */
    cob_file *file;      /* NULL where interpose.c does not tell it */
    struct server *server;
    char path[PATH];
    bool described, locked;
    enum mode mode; /* of its last OPEN that succeeded */
    uint8_t number, key_count, place[KEYS]; /* the place in the description of each key of the FCD */
    unsigned greatest, prime; /* lengths: of the longest record, of the prime key */
    struct answers ahead; /* to READ NEXT, while it is open INPUT */
};

static struct connector *connectors;
static cob_file *opening;
static uint8_t request[FRAME];
static struct { const struct connector *file; const struct verb *verb; unsigned times; } refused; /* in a row, with no other verb between */
static struct answers one;
static struct answer answer;

static const char *refuse(const struct connector *connector, const struct verb *verb, const char *status, const char *why)
{
    fprintf(stderr, "cobix: %s %s: %s\n", verb->name, connector->path, why);
    return status;
}

static const char *name_in(const char *path) { return strrchr(path, '/') ? strrchr(path, '/') + 1 : path; }

static unsigned four(const void *from) { return two(from) << 16 | two((const unsigned char *)from + 2); }

/* ---- connectors */

static bool has_area(const cob_file *file, const unsigned char *area)
{
    return file && file->organization == COB_ORG_INDEXED && file->record && file->record->data == area;
}

static struct connector *connector_of(FCD3 *fcd)
{
    char path[PATH] = "";
    struct connector *found = connectors, *c;
    while (found && !(found->area == fcd->recPtr && found->fcd == fcd))
        found = found->next;
    if (found && found->described)
        return found;
    const cob_field *name = has_area(opening, fcd->recPtr) ? opening->assign : NULL; /* after an OPEN that failed, the FCD's is old */
    if (!(name ? path_of((char *)name->data, name->size, path) : path_of(fcd->fnamePtr, two(fcd->fnameLen), path)))
        *path = 0;
    for (c = found ? NULL : connectors; c; c = c->next) /* several files may have one record area */
        if (c->area == fcd->recPtr && !c->fcd && (!found || strcmp(c->path, path) == 0))
            found = c;
    if (!found && (found = calloc(1, sizeof *found)))
        found->area = fcd->recPtr, found->next = connectors, connectors = found;
    if (found && !found->described)
        strcpy(found->path, path);
    if (found)
        found->fcd = fcd;
    return found;
}

/* ---- descriptions */

/* Where a key stands and how long it is. Where its clause is NAME = ITEM, GnuCOBOL tells the item by its description of the file
   alone. */
static void measure_key(const struct connector *connector, unsigned i, const EXTKEY *part, unsigned *offset, unsigned *length)
{
    const cob_file *file = connector->file;
    const cob_file_key *key = file && file->nkeys > i ? &file->keys[i] : NULL;
    const cob_field *item = key && key->count_components == 1 ? key->component[0] : NULL;
    *offset = item ? (unsigned)(item->data - file->record->data) : four(part->pos);
    *length = item ? (unsigned)item->size : four(part->len);
}

/* Puts the keys of the FCD, the alternates by rising offset. Where they end, or NULL where cobix cannot have them. */
static uint8_t *put_keys(struct connector *connector, const FCD3 *fcd, uint8_t *at)
{
    const KDB *block = fcd->kdbPtr;
    unsigned count = block ? two(block->nkeys) : 0;
    if (count < 1 || count > KEYS || fcd->colPtr)
        return NULL;
    *at++ = connector->key_count = (uint8_t)count;
    for (unsigned i = 0, place, offset, length; i < count; i++) {
        const KDB_KEY *key = &block->key[i];
        const EXTKEY *part = (const void *)((const char *)block + two(key->offset));
        measure_key(connector, i, part, &offset, &length);
        if (two(key->count) != 1 || (key->keyFlags & KEY_SPARSE) || offset > 65535 || length > 65535)
            return NULL;
        for (place = i; place > 1 && two(at + 5 * (place - 1)) > offset; place--)
            memcpy(at + 5 * place, at + 5 * (place - 1), 5);
        for (unsigned j = 1; j < i; j++)
            connector->place[j] = (uint8_t)(connector->place[j] + (connector->place[j] >= place));
        connector->place[i] = (uint8_t)place;
        *put_two(put_two(at + 5 * place, offset), length) = (key->keyFlags & KEY_DUPS) != 0;
        if (place == 0)
            connector->prime = length;
    }
    return at + 5 * count;
}

/* The connector of this program that has the file in this session. */
static const struct connector *holder_in(const struct server *server, const char *path)
{
    const struct connector *c = connectors;
    while (c && !(c->described && c->server == server && strcmp(name_in(c->path), name_in(path)) == 0))
        c = c->next;
    return c;
}

/* Takes a session for the file's folder where no other connector has the file, and a number that is free there. Where several have it,
   each only reads, and has a session of its own. */
static bool take_server(struct connector *connector, size_t folder_length, const struct connector **holder)
{
    char folder[PATH] = ".";
    uint8_t number = 0;
    if (folder_length) /* with its slash, which is all of the root */
        memcpy(folder, connector->path, folder_length), folder[folder_length] = 0;
    struct server *server = server_of(folder, NULL);
    for (const struct connector *c; server && (c = holder_in(server, connector->path)); server = server_of(folder, server))
        *holder = !*holder || c->locked || (*holder)->mode == INPUT ? c : *holder;
    while (server && number < FILES && server->taken[number])
        number++;
    connector->server = server, connector->number = number;
    return server && number < FILES;
}

/* Whether another SELECT of this program has the file for good, or has it open and not both only read. */
static bool is_shared_wrongly(const struct verb *verb, const struct connector *holder)
{
    return holder && (holder->locked || holder->mode != INPUT || verb->operand != INPUT);
}

/* Describes the file for an OPEN. The status where that fails, else NULL. */
static const char *describe(struct connector *connector, const struct verb *verb, const FCD3 *fcd)
{
    const char *name = name_in(connector->path);
    unsigned least = four(fcd->minRecLen), greatest = connector->greatest = four(fcd->maxRecLen);
    put_two(put_two(request + 6, least ? least : 1), greatest);
    uint8_t *end = put_keys(connector, fcd, request + 10);
    if (!end)
        return refuse(connector, verb, "39", "cobix has 1 to 9 keys, none split or suppressed, and no collating sequence");
    if (!*name || strlen(name) > 255 || greatest > 65535)
        return refuse(connector, verb, "39", "cobix has no files of this name or these lengths");
    const struct connector *holder = NULL;
    errno = 0;
    if (!take_server(connector, (size_t)(name - connector->path), &holder))
        return errno == ENOMEM ? "90" : refuse(connector, verb, "30", "the folder is not there, or cobix cannot be started");
    if (is_shared_wrongly(verb, holder))
        return holder->locked ? "38" : tell_select(verb->name, connector->path, holder->file);
    uint8_t access = fcd->accessFlags & ACCESS_DYNAMIC ? 2 : fcd->accessFlags & ACCESS_RANDOM ? 1 : 0;
    memcpy(request + 2, (uint8_t[]){DESCRIBE, connector->number, access, (fcd->otherFlags & OTH_OPTIONAL) != 0}, 4);
    end = (uint8_t *)stpcpy((char *)end, name);
    size_t got = exchange(connector->server, request, (size_t)(end - request), 1, &one, &answer);
    connector->described = connector->server->taken[connector->number] = got == 3 && answer.head[2] == DESCRIBE;
    if (connector->described)
        return NULL;
    switch (got > 3 && answer.head[2] == 0 ? answer.head[3] : 0) {
    case NO_SUCH_FILE:
        return refuse(connector, verb, "39", "cobix has no files of this name, these lengths or these keys");
    case NO_MEMORY:
        return "90";
    }
    return refuse(connector, verb, "30", got ? "cobix did not understand the description" : "cobix has ended");
}

static void release(struct connector *connector)
{
    memcpy(request + 2, (uint8_t[]){RELEASE, connector->number}, 2);
    connector->described = exchange(connector->server, request, 4, 1, &one, &answer) > 3 && answer.head[2] == 0 && answer.head[3] == FILE_IS_OPEN;
    connector->server->taken[connector->number] = connector->described;
}

/* ---- verbs */

/* The length of the record to be stored. GnuCOBOL does not always take it from the item of DEPENDING ON. */
static unsigned record_length(const struct connector *connector, const FCD3 *fcd)
{
    unsigned length = four(fcd->curRecLen);
    if (connector->file && connector->file->variable_record) {
        int depending = cob_get_int(connector->file->variable_record);
        length = depending < 0 ? 0 : (unsigned)depending;
    }
    return length > 65535 ? 65535 : length;
}

/* Puts the request for a verb, with those bytes of the record area that the verb looks at. */
static size_t put_verb(const struct connector *connector, const struct verb *verb, const FCD3 *fcd)
{
    bool keyed = verb->verb == READ || verb->verb == START, stores = verb->verb == WRITE || verb->verb == REWRITE;
    unsigned length = stores ? record_length(connector, fcd) : 0;
    unsigned bytes = keyed || verb->verb == DELETE || length > connector->greatest ? connector->greatest : length;
    uint8_t key = keyed ? connector->place[two(fcd->refKey)] : 0;
    memcpy(request + 2, (uint8_t[]){PERFORM, connector->number, verb->verb, verb->operand, key}, 5);
    put_two(put_two(request + 7, verb->verb == START ? two(fcd->effKeyLen) : 0), length);
    memcpy(request + 11, connector->area, bytes);
    return 11 + (size_t)bytes;
}

/* Gives the program the record that was read. */
static void deliver(struct connector *connector, FCD3 *fcd, size_t length)
{
    if (length > connector->greatest)
        length = connector->greatest;
    memcpy(connector->area, answer.record, length);
    put_two(put_two(fcd->curRecLen, 0), (unsigned)length);
    if (!connector->file)
        return;
    connector->file->record->size = length;
    if (connector->file->variable_record)
        cob_set_int(connector->file->variable_record, (int)length);
}

/* On a file that is open INPUT several records are read ahead. Nothing changes it, and no other verb looks at its position: READ and
   START set it or lose it, CLOSE ends it, and the rest leave it as it is. */
static const char *perform(struct connector *connector, const struct verb *verb, FCD3 *fcd)
{
    static char status[3];
    struct answers *from = connector->mode == INPUT && verb->verb == READ_NEXT ? &connector->ahead : &one;
    if (verb->verb == READ || verb->verb == START || verb->verb == CLOSE)
        connector->ahead.left = connector->ahead.asked = 0;
    size_t got = exchange(connector->server, request, put_verb(connector, verb, fcd), from == &one ? 1 : MOST, from, &answer);
    if (got < HEAD || answer.head[2] != PERFORM || answer.head[3] < '0' || answer.head[3] > '9')
        return refuse(connector, verb, "30", got ? "cobix did not understand the request" : "cobix has ended");
    memcpy(status, answer.head + 3, 2);
    if ((verb->verb == READ || verb->verb == READ_NEXT) && *status == '0')
        deliver(connector, fcd, got - HEAD);
    return status;
}

static const char *change(struct connector *connector, const struct verb *verb, FCD3 *fcd)
{
    const char *status = perform(connector, verb, fcd);
    return strcmp(status, "30") == 0 ? tell_sharing(verb->name, connector->path, false) : status;
}

/* Takes the position away, by a START that finds no record: the verb that was refused is to have failed. */
static void lose_position(struct connector *connector)
{
    connector->ahead.left = connector->ahead.asked = 0;
    if (!connector->described || (connector->mode != INPUT && connector->mode != IO))
        return;
    memcpy(request + 2, (uint8_t[]){PERFORM, connector->number, START, GREATER, 0}, 5);
    put_two(put_two(request + 7, connector->prime), 0);
    memset(request + 11, 0xFF, connector->greatest);
    exchange(connector->server, request, 11 + connector->greatest, 1, &one, &answer);
}

/* A verb that is not of this set: it has a line, once in a row. A program that repeats one for ever, since it waits for another status,
   is stopped. */
static const char *refuse_verb(struct connector *connector, const struct verb *verb, const char *why)
{
    bool again = refused.times && refused.file == connector && refused.verb == verb;
    lose_position(connector);
    refused.times = again ? refused.times + 1 : 1, refused.file = connector, refused.verb = verb;
    if (refused.times == MOST_REFUSED) {
        fprintf(stderr, "cobix: %s %s: refused %d times in a row: the program is stopped\n", verb->name, connector->path, MOST_REFUSED);
        cob_stop_run(1);
    }
    return again ? "95" : refuse(connector, verb, "95", why);
}

static const char *open_file(struct connector *connector, const struct verb *verb, FCD3 *fcd)
{
    bool described = connector->described;
    const char *status = described ? NULL : describe(connector, verb, fcd);
    if (!status && strcmp(status = perform(connector, verb, fcd), "30") == 0)
        status = tell_sharing(verb->name, connector->path, verb->operand == INPUT || verb->operand == IO);
    if (*status == '0')
        connector->mode = (enum mode)verb->operand;
    if (!described && connector->described && *status != '0')
        release(connector);
    return status;
}

static const char *close_file(struct connector *connector, struct verb verb, FCD3 *fcd)
{
    verb.operand |= four(fcd->opt) == COB_CLOSE_LOCK;
    const char *status = perform(connector, &verb, fcd);
    connector->locked |= verb.operand && *status == '0';
    if (!connector->locked)
        release(connector);
    return status;
}

/* What a verb answers on a file that is not open, as the proved verbs do. Of OPEN it is what it answers where memory lacks for the
   file's connector: then the file is not open, and no other verb answers 90. */
static const char *when_closed(const struct verb *verb)
{
    static const char *const statuses[] = {"90", "42", "47", "47", "47", "48", "49", "49", "00", "95"};
    return statuses[verb->verb];
}

static const char *answer_to(struct connector *connector, const struct verb *verb, FCD3 *fcd)
{
    bool back = verb->verb == READ_NEXT && four(fcd->opt) & (COB_READ_PREVIOUS | COB_READ_FIRST | COB_READ_LAST);
    if (verb->verb == NO_EFFECT)
        return "00";
    if (verb->verb == REFUSED || back)
        return refuse_verb(connector, verb, "the COBOL of 1985 does not have it");
    if (verb->verb == OPEN)
        return open_file(connector, verb, fcd);
    if (!connector->described)
        return when_closed(verb);
    if (verb->verb == CLOSE)
        return close_file(connector, *verb, fcd);
    if ((verb->verb == READ || verb->verb == START) && two(fcd->refKey) >= connector->key_count)
        return refuse_verb(connector, verb, "this is no key of the file");
    if (fcd->recordMode == REC_MODE_VARIABLE && !connector->file)
        return refuse_verb(connector, verb, "whether it has DEPENDING ON is not known: set LD_PRELOAD as README says");
    return verb->verb > START ? change(connector, verb, fcd) : perform(connector, verb, fcd);
}

int cobixfh(unsigned char *opcode, FCD3 *fcd)
{
    const struct verb *verb = verbs;
    if (fcd->fileOrg != ORG_INDEXED)
        return EXTFH(opcode, fcd);
    while (verb->code && verb->code != (opcode[0] == 0xFA ? 0xFA00 | opcode[1] : opcode[1]))
        verb++;
    struct connector *connector = connector_of(fcd);
    if (connector && verb->verb == OPEN && has_area(opening, connector->area))
        connector->file = opening;
    memcpy(fcd->fileStatus, connector ? answer_to(connector, verb, fcd) : when_closed(verb), 2);
    if (memcmp(fcd->fileStatus, "95", 2) != 0)
        refused.times = 0;
    if (connector && verb->verb == CLOSE)
        connector->fcd = NULL; /* GnuCOBOL frees it */
    opening = NULL;
    fcd->openMode = OPEN_NOT_OPEN | 0x10; /* or GnuCOBOL's own handler would close it, too */
    return 0;
}

/* ---- for interpose.c */

void cobixfh_opens(cob_file *file) { opening = file; }

static struct connector **place_of(const cob_file *file)
{
    struct connector **at = &connectors;
    while (*at && !(has_area(file, (*at)->area) && (!(*at)->file || (*at)->file == file)))
        at = &(*at)->next;
    return at;
}

bool cobixfh_knows(const cob_file *file) { return *place_of(file) != NULL; }

bool cobixfh_has_open(const cob_file *file)
{
    const struct connector *connector = *place_of(file);
    return connector && connector->described && !connector->locked;
}

bool cobixfh_leaves(const cob_file *file)
{
    static const struct verb close = {OP_CLOSE, CLOSE, 0, "CLOSE"};
    struct connector **at = place_of(file), *connector = *at;
    if (cobixfh_has_open(file))
        close_file(connector, close, connector->fcd);
    if (connector && !connector->locked) {
        *at = connector->next;
        free(connector);
    }
    return connector != NULL;
}
