/* library_check TRUST ANSWERS FILE COUNT [CONTENT]: nanoseconds of the processor that cmsproof_check takes for a file in memory, COUNT
   times in one process, with the lists read once. The file must be accepted. Build it with
   `cc -O2 library_check.c $(pkg-config --cflags --libs cmsproof)`. */
#define _POSIX_C_SOURCE 199309L
#include <cmsproof.h>
#include <stdio.h>
#include <stdlib.h>
#include <time.h>

static uint8_t trusted[1 << 26], vouched[1 << 24], file[1 << 24], content[1 << 24];

static size_t of_file(const char *path, uint8_t *into, size_t room) {
    FILE *from = fopen(path, "rb");
    size_t length = from != NULL ? fread(into, 1, room, from) : room;
    if (length == room || ferror(from) || fclose(from) != 0) {
        fprintf(stderr, "library_check: %s cannot be read\n", path);
        exit(3);
    }
    return length;
}

int main(int count, char **words) {
    if (count < 5) return 3;
    size_t listed = of_file(words[1], trusted, sizeof trusted), asked = of_file(words[2], vouched, sizeof vouched);
    size_t length = of_file(words[3], file, sizeof file), beside = count > 5 ? of_file(words[5], content, sizeof content) : 0, size;
    cmsproof_trust trust = CMSPROOF_EMPTY;
    cmsproof_answers answers = CMSPROOF_EMPTY;
    cmsproof_answer said;
    char line[200];
    struct timespec from, to;
    if (cmsproof_trust_read(&trust, trusted, listed, &said) != CMSPROOF_DONE) return 2;
    if (cmsproof_answers_read(&answers, vouched, asked, &said) != CMSPROOF_DONE) return 2;
    long times = atol(words[4]);
    clock_gettime(CLOCK_PROCESS_CPUTIME_ID, &from);
    for (long i = 0; i < times; i++)
        if (cmsproof_check(&trust, &answers, file, length, content, beside, count > 5, false, line, sizeof line, &size, &said)
            != CMSPROOF_DONE) return 1;
    clock_gettime(CLOCK_PROCESS_CPUTIME_ID, &to);
    printf("%.0f\n", ((double)(to.tv_sec - from.tv_sec) * 1e9 + (double)(to.tv_nsec - from.tv_nsec)) / (double)times);
    cmsproof_answers_free(&answers);
    cmsproof_trust_free(&trust);
    return 0;
}
