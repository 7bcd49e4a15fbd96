/* Staff by number and by city: makes a file, reads it in both orders, changes a record.
 *     cc example.c $(pkg-config --cflags --libs cobix) -o example && mkdir -p files && ./example files */
#include <cobix.h>
#include <stdio.h>
#include <stdlib.h>

static void done(const char *what, int answer)
{
    if (cobix_succeeded(answer))
        return;
    fprintf(stderr, "%s: %s (%d)\n", what, cobix_message(answer), answer);
    exit(1); /* closes the files */
}

int main(int count, char **words)
{
    static const char *const records[] = {"0104OKAFOR  LAGOS ", "0017LINDQVISLUND  ", "0250ADEYEMI LAGOS "};
    const cobix_key keys[] = {{.offset = 0, .length = 4}, {.offset = 12, .length = 6, .duplicates = true}};
    const cobix_description described = {
        .name = "staff.dat", .access = COBIX_DYNAMIC, .least = 18, .greatest = 18, .key_count = 2, .keys = keys};
    const void *record;
    size_t length;
    cobix *session;
    cobix_file *staff;
    done("folder", cobix_open(count > 1 ? words[1] : ".", NULL, &session));
    done("description", cobix_describe(session, &described, &staff));
    done("OPEN", cobix_open_file(staff, COBIX_OUTPUT));
    for (int i = 0; i < 3; i++)
        done("WRITE", cobix_write(staff, records[i], 18));
    done("CLOSE", cobix_close_file(staff, false));
    done("OPEN", cobix_open_file(staff, COBIX_IO));
    done("REWRITE", cobix_rewrite(staff, "0017LINDQVISLAGOS ", 18));
    done("START", cobix_start(staff, 1, COBIX_EQUAL, "LAGOS ", 6));
    while (cobix_succeeded(cobix_read_next(staff, &record, &length)))
        printf("%.*s\n", (int)length, (const char *)record);
    done("DELETE", cobix_delete(staff, "0250"));
    done("CLOSE", cobix_close_file(staff, false));
    return cobix_close(session);
}
