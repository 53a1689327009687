/* What must hold of every verdict of the library, whatever octets it was asked about: what the header promises, and that nothing is
   accepted without what makes the real files accepted. The trust list, the answers and the content are those of the real files: so
   an accepted file has the octets of two signatures that are vouched for (of its signer and of a token) and of what they sign. */
#ifndef JUDGING_H
#define JUDGING_H

#include "common.h"

struct vouched { struct octets key, tail, signature; };

static struct octets listed, asked, blob;
static struct vouched pairs[64];
static size_t paired;

static inline int digit(int letter) { return letter >= 'a' ? letter - 'a' + 10 : letter - '0'; }

/* The octets of a field of hexadecimal digits. */
static inline struct octets of_hex(const char *text) {
    struct octets field = {(uint8_t *)malloc(strlen(text) / 2 + 1), strlen(text) / 2};
    HOLDS(field.at != NULL);
    for (size_t i = 0; i < field.length; i++) field.at[i] = (uint8_t)(digit(text[2 * i]) * 16 + digit(text[2 * i + 1]));
    return field;
}

/* Reads the lists and the content, and takes the answers apart: key, digest, algorithm, tail and signature. */
static inline void know(const char *trust, const char *answers, const char *content) {
    listed = of_file(trust);
    asked = of_file(answers);
    blob = of_file(content);
    char *copy = (char *)malloc(asked.length + 1), *rest = copy, *line;
    HOLDS(copy != NULL);
    memcpy(copy, asked.at, asked.length);
    copy[asked.length] = '\0';
    while ((line = rest) != NULL && *line != '\0') {
        if ((rest = strchr(line, '\n')) != NULL) *rest++ = '\0';
        char *fields[5] = {line, NULL, NULL, NULL, NULL};
        int count = 1;
        while (count < 5 && (fields[count] = strchr(fields[count - 1], ' ')) != NULL) *fields[count++]++ = '\0';
        if (strcmp(fields[0], "cmsproof") == 0 || count != 5) continue;
        HOLDS(paired < sizeof pairs / sizeof pairs[0]);
        pairs[paired++] = (struct vouched){of_hex(fields[0]), of_hex(fields[3]), of_hex(fields[4])};
    }
    free(copy);
    HOLDS(paired >= 2);
}

/* How many of the signatures that are vouched for have their octets, and those that they sign, in a file. */
static inline size_t signatures_in(struct octets file) {
    size_t count = 0;
    for (size_t i = 0; i < paired; i++) count += stands_in(pairs[i].tail, file) && stands_in(pairs[i].signature, file);
    return count;
}

/* What an answer has beside its verdict, for each verdict. */
static inline void holds_together(const cmsproof_answer *answer) {
    int ruled = answer->letter != 0;
    HOLDS(answer->verdict <= CMSPROOF_WRITTEN);
    if (answer->verdict == CMSPROOF_ACCEPTED) HOLDS(!ruled && answer->nanoseconds < 1000000000);
    else HOLDS(answer->seconds == 0 && answer->nanoseconds == 0);
    if (answer->verdict == CMSPROOF_REFUSES) HOLDS(ruled && answer->number >= 1 && answer->number <= 14);
    if (answer->verdict == CMSPROOF_IS_MALFORMED && answer->line == 0) HOLDS(ruled && answer->kind >= 1);
    if (answer->verdict == CMSPROOF_NONE) HOLDS(is_nothing(answer));
    HOLDS(answer->kind <= 15 && (answer->kind != 0 || answer->at == 0));
    if (answer->letter == 'S') HOLDS(answer->signer >= 1 && answer->token == 0);
    if (answer->letter == 'C') HOLDS(answer->signer == 0 && answer->token == 0);
    HOLDS((answer->inner != 0) == (answer->letter == 'K' && answer->number == 5));
}

/* The status of a check that goes with an answer. */
static inline cmsproof_status status_of(const cmsproof_answer *answer) {
    switch (answer->verdict) {
    case CMSPROOF_ACCEPTED: return CMSPROOF_DONE;
    case CMSPROOF_REFUSES: return CMSPROOF_REFUSED;
    case CMSPROOF_IS_MALFORMED: return CMSPROOF_MALFORMED;
    case CMSPROOF_FAILS: return CMSPROOF_FAILED;
    default: return CMSPROOF_NO_LIST;
    }
}

/* Whether a line says what an answer says: its first word, its rule, and that it is one line of printable octets. */
static inline void is_line_of(const char *line, size_t length, const cmsproof_answer *answer) {
    static const char *const words[] = {"", "accepted ", "refused ", "malformed ", "failed "};
    char rule[16];
    HOLDS(answer->verdict >= 1 && answer->verdict <= 4 && length >= 2 && line[length - 1] == '\n');
    for (size_t i = 0; i + 1 < length; i++) HOLDS(line[i] >= ' ' && line[i] <= '~');
    HOLDS(strncmp(line, words[answer->verdict], strlen(words[answer->verdict])) == 0);
    if (answer->letter == 0) return;
    int size = snprintf(rule, sizeof rule, " %c%u ", (char)answer->letter, answer->number);
    /* of a malformed file the line has the fault in place of C1 */
    if (answer->letter == 'C' && answer->number == 1) size = snprintf(rule, sizeof rule, " M%u ", answer->kind);
    struct octets part = {(uint8_t *)rule, (size_t)size}, whole = {(uint8_t *)line, length};
    HOLDS(stands_in(part, whole));
}

#define LINE 200

/* Checks a file in one piece of memory, with and without room, and gives the answer. */
static inline cmsproof_answer checked(cmsproof_trust *trust, cmsproof_answers *answers, struct octets file, struct octets content,
                               bool given, bool sha1) {
    cmsproof_answer answer = stale(), again = stale();
    char line[LINE], less[LINE];
    size_t length = 9999, size = 9999;
    memset(line, '?', sizeof line);
    memset(less, '?', sizeof less);
    cmsproof_status status = cmsproof_check(trust, answers, file.at, file.length, content.at, content.length, given, sha1, line,
                                            sizeof line, &length, &answer);
    holds_together(&answer);
    HOLDS(status == status_of(&answer) && length < sizeof line && line[length] == '?');
    if (status == CMSPROOF_NO_LIST) HOLDS(length == 0);
    else is_line_of(line, length, &answer);
    status = cmsproof_check(trust, answers, file.at, file.length, content.at, content.length, given, sha1, less, 0, &size, &again);
    HOLDS(status == status_of(&answer) && size == 0 && less[0] == '?' && memcmp(&answer, &again, sizeof answer) == 0);
    if (length < 2) return answer;
    again = stale();
    status = cmsproof_check(trust, answers, file.at, file.length, content.at, content.length, given, sha1, less, length - 1, &size,
                            &again);
    HOLDS(status == CMSPROOF_NO_ROOM && size == length && memcmp(&answer, &again, sizeof answer) == 0);
    for (size_t i = 0; i < sizeof less; i++) HOLDS(less[i] == '?');
    return answer;
}

/* What an accepted file must have: two signatures that are vouched for, and the content that they sign, in one place of both. */
static inline void may_be_accepted(struct octets file, struct octets content, bool given) {
    HOLDS(signatures_in(file) >= 2);
    HOLDS(given ? content.length == blob.length && memcmp(content.at, blob.at, blob.length) == 0 : stands_in(blob, file));
}

#endif
