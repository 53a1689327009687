/* evidence TRUST ANSWERS ENDS AT WHOLE RECORD DATA ..: what the library says of an evidence record over data, as a line, and then verdict,
   code, chain and time-stamp in numbers. Before that the same in no room, in just enough and in too little, with each allocation refused
   in turn, with lengths that are wrong, and of the record's questions. ENDS and AT may be empty; WHOLE is 0 or 1. */
#include "common.h"
#include "refusing.h"

#define LINE 256

static cmsproof_trust trust = CMSPROOF_EMPTY;
static cmsproof_answers answers = CMSPROOF_EMPTY;
static struct octets record, joined;
static uint64_t lengths[64];
static size_t objects;
static const char *ends, *at;
static bool whole;

static cmsproof_status told(const uint64_t *given, size_t count, char *text, size_t room, size_t *length, cmsproof_answer *said) {
    return cmsproof_evidence_check(&trust, &answers, record.at, record.length, joined.at, joined.length, given, count, ends, strlen(ends),
                                   at, strlen(at), whole, text, room, length, said);
}

static cmsproof_status asked(char *text, size_t room, size_t *length, cmsproof_answer *said) {
    return cmsproof_evidence_questions(&trust, record.at, record.length, text, room, length, said);
}

/* The octets of a file, put behind those of the files before it. */
static void add(const char *path) {
    struct octets file = of_file(path);
    HOLDS(objects < sizeof lengths / sizeof lengths[0]);
    lengths[objects++] = file.length;
    joined.at = (uint8_t *)realloc(joined.at, joined.length + file.length + 1);
    HOLDS(joined.at != NULL);
    memcpy(joined.at + joined.length, file.at, file.length);
    joined.length += file.length;
    free(file.at);
}

/* In no room, in just enough, and in too little, behind whose end nothing may be written. */
static void in_rooms(const char *line, size_t length, cmsproof_status status, const cmsproof_answer *right) {
    char *text = (char *)malloc(length);
    size_t size = 99;
    cmsproof_answer said = stale();
    HOLDS(text != NULL && told(lengths, objects, text, 0, &size, &said) == status && size == 0 && memcmp(&said, right, sizeof said) == 0);
    said = stale();
    HOLDS(told(lengths, objects, text, length, &size, &said) == status && size == length && memcmp(text, line, length) == 0);
    HOLDS(memcmp(&said, right, sizeof said) == 0);
    text[0] = '?';
    said = stale();
    HOLDS(told(lengths, objects, text, length - 1, &size, &said) == CMSPROOF_NO_ROOM && size == length && text[0] == '?');
    HOLDS(memcmp(&said, right, sizeof said) == 0);
    free(text);
}

/* With lengths whose sum is another one: no verdict. */
static void with_other_lengths(void) {
    static const char line[] = "usage lengths\n";
    const uint64_t long_ones[2] = {UINT64_MAX, joined.length + 1}, none[1] = {0}, longer[1] = {joined.length + 1};
    const struct { const uint64_t *at; size_t count; } given[] = {{long_ones, 2}, {longer, 1}, {none, joined.length > 0 ? 1 : 0}};
    for (size_t i = 0; i < sizeof given / sizeof given[0] - (joined.length == 0); i++) {
        char text[LINE];
        size_t length = 99;
        cmsproof_answer said = stale();
        HOLDS(told(given[i].at, given[i].count, text, sizeof text, &length, &said) == CMSPROOF_USAGE && is_nothing(&said));
        HOLDS(length == sizeof line - 1 && memcmp(text, line, length) == 0);
    }
}

/* With each allocation refused: a call then says so, or what is right. */
static void with_refusals(const char *line, size_t length, cmsproof_status status, const cmsproof_answer *right) {
    static char text[1 << 16], questions[1 << 16];
    cmsproof_answer said = stale(), all = stale();
    size_t size = 99, asks = 99;
    cmsproof_status of_questions = asked(questions, sizeof questions, &asks, &all), now;
    for (all_behind = 0; all_behind < 2; all_behind++) {
        int refused = 1;
        for (long n = 1; refused; n++) {
            HOLDS(n < 10000);
            text[0] = '?';
            said = stale();
            begin(n);
            now = told(lengths, objects, text, LINE, &size, &said);
            refused = ended();
            HOLDS(memcmp(&said, right, sizeof said) == 0 || (refused && is_nothing(&said)));
            if (now == status) HOLDS(!refused && size == length && memcmp(text, line, length) == 0);
            else HOLDS(refused && now == CMSPROOF_NO_MEMORY && size == 0 && text[0] == '?');
            said = stale();
            begin(n);
            now = asked(text, sizeof text, &size, &said);
            int here = ended();
            if (now == of_questions) HOLDS(size == asks && memcmp(text, questions, asks) == 0 && memcmp(&said, &all, sizeof all) == 0);
            else HOLDS(here && now == CMSPROOF_NO_MEMORY && size == 0 && is_nothing(&said));
            refused |= here;
        }
    }
}

int main(int count, char **words) {
    HOLDS(count > 6);
    struct octets listed = of_file(words[1]), vouched = of_file(words[2]);
    ends = words[3], at = words[4], whole = words[5][0] == '1';
    record = of_file(words[6]);
    joined.at = (uint8_t *)malloc(1);
    for (int i = 7; i < count; i++) add(words[i]);
    cmsproof_answer said = stale(), right = stale();
    char line[LINE];
    size_t length = 99;
    HOLDS(told(lengths, objects, line, sizeof line, &length, &said) == CMSPROOF_NO_LIST && is_nothing(&said) && length == 0);
    HOLDS(asked(line, sizeof line, &length, &said) == CMSPROOF_NO_LIST && is_nothing(&said) && length == 0);
    begin(0);
    HOLDS(cmsproof_trust_read(&trust, listed.at, listed.length, &said) == CMSPROOF_DONE);
    HOLDS(cmsproof_answers_read(&answers, vouched.at, vouched.length, &said) == CMSPROOF_DONE);
    ended();
    cmsproof_status status = told(lengths, objects, line, sizeof line, &length, &right);
    HOLDS((status == CMSPROOF_DONE) == (right.verdict == CMSPROOF_ACCEPTED) && length > 0 && length < sizeof line);
    in_rooms(line, length, status, &right);
    with_other_lengths();
    with_refusals(line, length, status, &right);
    begin(0);
    cmsproof_trust_free(&trust);
    cmsproof_answers_free(&answers);
    ended();
    HOLDS(live == 0); /* of the library's blocks none is left */
    printf("%.*s%u %c%u %lu %lu\n", (int)length, line, (unsigned)right.verdict, right.letter ? (char)right.letter : '-',
           (unsigned)right.number, (unsigned long)right.signer, (unsigned long)right.token);
    free(record.at), free(joined.at), free(listed.at), free(vouched.at);
    return 0;
}
