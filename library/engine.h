/* A session of the proved library in this process: a request goes in, its answer comes out, both as docs/LIBRARY.md has them. */
#ifndef ENGINE_H
#define ENGINE_H
#include <stdbool.h>
#include <stddef.h>
#include <stdint.h>

struct engine;

/* The longest body of a request, and the longest head of an answer. */
enum { ENGINE_REQUEST = 8192, ENGINE_HEAD = 5 };

enum { ENGINE_FEWEST_PAGES = 16, ENGINE_PAGES = 1048576, ENGINE_FRAMES = 4096, ENGINE_MOST_FRAMES = 4096 };

/* Begins a session over the folder of this path, which is UTF-8. At least ENGINE_FEWEST_PAGES pages, and 1 to ENGINE_MOST_FRAMES frames.
   NULL where memory is lacking. */
struct engine *cobix_engine_begin(const char *folder, uint32_t pages, uint32_t frames);

/* The record that an answer delivers, of no bytes where it delivers none: where it lies in the session. It is good until the next call on
   that session, the one that ends it too, and nobody is to write there. */
struct engine_record {
    const uint8_t *bytes;
    size_t length;
};

/* Does what the body of a request asks for, of 1 to ENGINE_REQUEST bytes. Puts the head of its answer into ENGINE_HEAD bytes: all but the
   record, and first the two bytes of the length of both. How many bytes the head has. One call at a time in a session; it never waits for
   another process or thread. */
size_t cobix_engine_ask(struct engine *engine, const uint8_t *body, size_t length, uint8_t *head, struct engine_record *record);

/* Closes the files that are open, in the order of opening, and ends the session. How many of them were not closed well: their CLOSE was
   answered another status than 00. In a child of fork() the files are the parent's: then it gives memory back, and no more; what it
   answers says nothing then. */
size_t cobix_engine_end(struct engine *engine);

/* Whether this process is a child of the one that began the session. Its descriptors were closed here by fork(). */
bool cobix_engine_is_parents(const struct engine *engine);

#endif
