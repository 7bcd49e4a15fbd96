/* The names of files, as GnuCOBOL reads them. */
#include "handler.h"
#include <stdio.h>
#include <stdlib.h>
#include <string.h>

/* What the environment has for a part of a name. */
static const char *meaning_of(const char *part, size_t length)
{
    static const char *const beginnings[] = {"DD_", "dd_", ""};
    char variable[PATH + 4];
    for (int i = 0; i < 3; i++) {
        snprintf(variable, sizeof variable, "%s%.*s", beginnings[i], (int)length, part);
        for (char *dot = variable; (dot = strchr(dot, '.'));)
            *dot = '_';
        const char *value = getenv(variable);
        if (value && *value)
            return value;
    }
    return NULL;
}

bool path_of(const char *name, size_t length, char *path)
{
    while (length && (name[length - 1] == ' ' || name[length - 1] == 0))
        length--;
    if (length == 0 || length >= PATH)
        return false;
    const char *slash = memchr(name, '/', length);
    size_t first = slash ? (size_t)(slash - name) : length, marked = name[0] == '$';
    const char *value = first > marked && *name != '.' ? meaning_of(name + marked, first - marked) : NULL;
    if (!value)
        first = marked && slash ? first + 1 : 0; /* a marked part that stands for nothing goes, with its slash */
    const char *begins = value ? value : name + first, *folder = getenv("COB_FILE_PATH");
    bool below = folder && *folder && *begins != '/';
    int written = snprintf(path, PATH, "%s%s%s%.*s", below ? folder : "", below ? "/" : "", value ? value : "",
                           (int)(length - first), name + first);
    return written > 0 && written < PATH;
}
