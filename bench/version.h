/* What `versions.c` asks of the library of one commit. `version.c` gives it, compiled with that commit's header. */
#ifndef VERSION_H
#define VERSION_H

#include <stddef.h>
#include <stdint.h>

/* A refusal or 0, and two numbers. */
struct answer {
    uint16_t refusal, first, second;
};

/* An edit, by the digit of its key line, with the numbers of that line: 1 add, 2 link, 3 clear. */
struct edit {
    uint16_t call, a, b, c, d;
};

struct version {
    size_t bytes; /* of a table */
    uint16_t (*fits)(void);
    struct answer (*fresh)(void *table);
    struct answer (*edit)(void *table, struct edit edit);
    uint16_t (*is_sound)(const void *table);
    struct answer (*key_line)(void *table, const char *line);
};

#endif
