/* Checks one time-stamp whose answers are there: stamp TRUST ANSWERS STAMP DATA prints what `cmsproof stamp check` prints. */
#include <cmsproof.h>
#include <stdio.h>
#include <stdlib.h>

static uint8_t list[1 << 20], asked[1 << 20], stamp[1 << 24], data[1 << 26];

/* The octets of a file. One that cannot be read, or for which there is no room, is never taken for one that has none. */
static size_t of_file(const char *path, uint8_t *into, size_t room) {
    FILE *from = fopen(path, "rb");
    size_t length = from != NULL ? fread(into, 1, room, from) : 0;
    if (from == NULL || ferror(from) || length == room || fclose(from) != 0) {
        fprintf(stderr, "stamp: failed read %s%s\n", path, length == room ? ": it is too long" : "");
        exit(4);
    }
    return length;
}

int main(int count, char **words) {
    if (count != 5) return fputs("stamp: stamp TRUST ANSWERS STAMP DATA\n", stderr), 3;
    size_t listed = of_file(words[1], list, sizeof list), answered = of_file(words[2], asked, sizeof asked);
    size_t stamped = of_file(words[3], stamp, sizeof stamp), length = of_file(words[4], data, sizeof data), written;
    cmsproof_trust trust = CMSPROOF_EMPTY;
    cmsproof_answers answers = CMSPROOF_EMPTY;
    cmsproof_answer said;
    char line[200];
    if (cmsproof_trust_read(&trust, list, listed, &said) != CMSPROOF_DONE) return fputs("stamp: no trust list\n", stderr), 2;
    if (cmsproof_answers_read(&answers, asked, answered, &said) != CMSPROOF_DONE) return fputs("stamp: no answers list\n", stderr), 2;
    cmsproof_status status =
        cmsproof_stamp_check(&trust, &answers, stamp, stamped, data, length, false, line, sizeof line, &written, &said);
    bool shown = written <= sizeof line && fwrite(line, 1, written, stdout) == written && fflush(stdout) == 0;
    cmsproof_answers_free(&answers);
    cmsproof_trust_free(&trust);
    if (!shown || status == CMSPROOF_FAILED || status == CMSPROOF_NO_MEMORY) return fputs("stamp: failed\n", stderr), 4;
    return status == CMSPROOF_DONE && said.verdict == CMSPROOF_ACCEPTED ? 0 : 1;
}
