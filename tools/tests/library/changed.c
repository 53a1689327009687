/* changed TRUST ANSWERS CONTENT FOLDER EVERY FILE: asks the library about a file with each octet changed to three other values in
   turn, and cut at each place; with `detached` in its name it is handed the content. Nothing may be accepted without what
   judging.h asks for, nor at another moment. Every EVERY-th changed file, and each hundredth accepted one, is put into FOLDER as N.p7s,
   and its line is printed behind its name, to be compared with the command's. The last line counts the verdicts. */
#include "judging.h"

static cmsproof_trust trust = CMSPROOF_EMPTY;
static cmsproof_answers answers = CMSPROOF_EMPTY;
static struct octets content;
static int given;
static long every, asked_about, verdicts[5];
static cmsproof_answer right;
static const char *folder;

/* Keeps a changed file, and prints what the library says of it. */
static void keep(struct octets file) {
    char name[4096], line[LINE];
    size_t length;
    cmsproof_answer said;
    HOLDS(snprintf(name, sizeof name, "%s/%ld.p7s", folder, asked_about) < (int)sizeof name);
    FILE *kept = fopen(name, "wb");
    HOLDS(kept != NULL && fwrite(file.at, 1, file.length, kept) == file.length && fclose(kept) == 0);
    cmsproof_check(&trust, &answers, file.at, file.length, content.at, content.length, given, false, line, sizeof line, &length, &said);
    printf("%ld.p7s: %.*s", asked_about, (int)length, line);
}

static void ask(struct octets file) {
    cmsproof_answer said = checked(&trust, &answers, file, content, given, false);
    verdicts[said.verdict]++;
    asked_about++;
    if (said.verdict == CMSPROOF_ACCEPTED) {
        may_be_accepted(file, content, given);
        HOLDS(said.seconds == right.seconds && said.nanoseconds == right.nanoseconds);
    }
    if (asked_about % every == 0 || (said.verdict == CMSPROOF_ACCEPTED && verdicts[CMSPROOF_ACCEPTED] % 100 == 1)) keep(file);
}

int main(int count, char **words) {
    HOLDS(count == 7);
    know(words[1], words[2], words[3]);
    folder = words[4];
    every = atol(words[5]);
    HOLDS(every > 0);
    struct octets file = of_file(words[6]), cut;
    given = strstr(words[6], "detached") != NULL;
    content = given ? blob : (struct octets){file.at, 0};
    cmsproof_answer said;
    HOLDS(cmsproof_trust_read(&trust, listed.at, listed.length, &said) == CMSPROOF_DONE);
    HOLDS(cmsproof_answers_read(&answers, asked.at, asked.length, &said) == CMSPROOF_DONE);
    right = checked(&trust, &answers, file, content, given, false);
    for (size_t at = 0; at < file.length; at++) {
        uint8_t was = file.at[at];
        const uint8_t values[] = {(uint8_t)(was ^ 1), (uint8_t)(was ^ 0x80), (uint8_t)(was + 0x11)};
        for (size_t i = 0; i < sizeof values; i++) {
            file.at[at] = values[i];
            ask(file);
        }
        file.at[at] = was;
        cut.at = (uint8_t *)malloc(at + 1); /* of its own size, so that valgrind sees a read past it */
        HOLDS(cut.at != NULL);
        memcpy(cut.at, file.at, cut.length = at);
        ask(cut);
        free(cut.at);
    }
    cmsproof_trust_free(&trust);
    cmsproof_answers_free(&answers);
    printf("%ld accepted, %ld refused, %ld malformed, %ld failed\n", verdicts[1], verdicts[2], verdicts[3], verdicts[4]);
    return 0;
}
