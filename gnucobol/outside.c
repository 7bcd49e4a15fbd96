/* In the place of inside.c where the proved library was not built: every session is a process. */
#include "handler.h"
#include <stdio.h>

bool inside_start(struct server *server, const char *folder)
{
    (void)server, (void)folder;
    fprintf(stderr, "cobix: this handler was built without the library: COBIX_PROCESS=serve\n");
    return false;
}

size_t inside_exchange(struct server *server, uint8_t *request, size_t length, struct answer *answer)
{
    (void)server, (void)request, (void)length, (void)answer;
    return 0;
}

void inside_end(struct server *server) { (void)server; }
