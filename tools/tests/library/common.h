/* What the programs of this folder share: a fact that must hold, files in memory, and answers that a call must not leave as they are. */
#ifndef COMMON_H
#define COMMON_H

#include "cmsproof.h"
#include <stdio.h>
#include <stdlib.h>
#include <string.h>

/* Ends the program where a fact does not hold, with its line. */
#define HOLDS(fact) \
    do { \
        if (!(fact)) { \
            fprintf(stderr, "%s:%d: %s\n", __FILE__, __LINE__, #fact); \
            fflush(NULL); \
            abort(); \
        } \
    } while (0)

struct octets { uint8_t *at; size_t length; };

/* The octets of a file, in a block of just their size, so that a read past it is seen. */
static inline struct octets of_file(const char *path) {
    FILE *file = fopen(path, "rb");
    HOLDS(file != NULL);
    HOLDS(fseek(file, 0, SEEK_END) == 0);
    long length = ftell(file);
    HOLDS(length >= 0 && fseek(file, 0, SEEK_SET) == 0);
    struct octets read = {(uint8_t *)malloc(length > 0 ? (size_t)length : 1), (size_t)length};
    HOLDS(read.at != NULL && fread(read.at, 1, read.length, file) == read.length);
    HOLDS(fclose(file) == 0);
    return read;
}

/* Whether some octets stand in others. */
static inline int stands_in(struct octets part, struct octets whole) {
    if (part.length == 0) return 1;
    for (size_t at = 0; part.length <= whole.length && at <= whole.length - part.length; at++) {
        const uint8_t *found = (const uint8_t *)memchr(whole.at + at, part.at[0], whole.length - part.length - at + 1);
        if (found == NULL) return 0;
        if (memcmp(found, part.at, part.length) == 0) return 1;
        at = (size_t)(found - whole.at);
    }
    return 0;
}

/* An answer that no call may leave as it is. */
static inline cmsproof_answer stale(void) {
    cmsproof_answer answer;
    memset(&answer, 0xff, sizeof answer);
    answer.verdict = CMSPROOF_ACCEPTED;
    return answer;
}

static inline int is_nothing(const cmsproof_answer *answer) {
    cmsproof_answer nothing;
    memset(&nothing, 0, sizeof nothing);
    return memcmp(answer, &nothing, sizeof nothing) == 0;
}

#endif
