/* under TRUST ANSWERS ENDS AT RECORD FILE [CONTENT]: what the library says of a signed file under an evidence record, as a line, and then
   verdict, code, signer or chain, token or time-stamp, and which input is refused, in numbers. Before that the same in no room, in just
   enough and in too little, without lists, and with each allocation refused in turn. ENDS and AT may be empty. */
#include "common.h"
#include "refusing.h"

#define LINE 256

static cmsproof_trust trust = CMSPROOF_EMPTY;
static cmsproof_answers answers = CMSPROOF_EMPTY;
static struct octets record, file, content;
static const char *ends, *at;

static cmsproof_status told(char *text, size_t room, size_t *length, cmsproof_answer *said) {
    return cmsproof_check_under(&trust, &answers, file.at, file.length, content.at, content.length, content.at != NULL, record.at,
                                record.length, ends, strlen(ends), at, strlen(at), text, room, length, said);
}

/* In no room, in just enough, and in too little, behind whose end nothing may be written. */
static void in_rooms(const char *line, size_t length, cmsproof_status status, const cmsproof_answer *right) {
    char *text = (char *)malloc(length);
    size_t size = 99;
    cmsproof_answer said = stale();
    HOLDS(text != NULL && told(text, 0, &size, &said) == status && size == 0 && memcmp(&said, right, sizeof said) == 0);
    said = stale();
    HOLDS(told(text, length, &size, &said) == status && size == length && memcmp(text, line, length) == 0);
    HOLDS(memcmp(&said, right, sizeof said) == 0);
    text[0] = '?';
    said = stale();
    HOLDS(told(text, length - 1, &size, &said) == CMSPROOF_NO_ROOM && size == length && text[0] == '?');
    HOLDS(memcmp(&said, right, sizeof said) == 0);
    free(text);
}

/* With each allocation refused, alone or with all behind it: the call then says so, or what is right. */
static void with_refusals(const char *line, size_t length, cmsproof_status status, const cmsproof_answer *right) {
    for (all_behind = 0; all_behind < 2; all_behind++) {
        int refused = 1;
        for (long n = 1; refused; n++) {
            char text[LINE] = "?";
            size_t size = 99;
            cmsproof_answer said = stale();
            HOLDS(n < 10000);
            begin(n);
            cmsproof_status now = told(text, LINE, &size, &said);
            refused = ended();
            HOLDS(memcmp(&said, right, sizeof said) == 0 || (refused && is_nothing(&said)));
            if (now == status) HOLDS(size == length && memcmp(text, line, length) == 0);
            else HOLDS(refused && now == CMSPROOF_NO_MEMORY && size == 0 && text[0] == '?');
        }
    }
}

int main(int count, char **words) {
    HOLDS(count == 7 || count == 8);
    struct octets listed = of_file(words[1]), vouched = of_file(words[2]);
    ends = words[3], at = words[4];
    record = of_file(words[5]), file = of_file(words[6]);
    if (count == 8) content = of_file(words[7]);
    cmsproof_answer said = stale(), right = stale();
    char line[LINE];
    size_t length = 99;
    HOLDS(told(line, sizeof line, &length, &said) == CMSPROOF_NO_LIST && is_nothing(&said) && length == 0);
    begin(0);
    HOLDS(cmsproof_trust_read(&trust, listed.at, listed.length, &said) == CMSPROOF_DONE);
    HOLDS(cmsproof_answers_read(&answers, vouched.at, vouched.length, &said) == CMSPROOF_DONE);
    ended();
    cmsproof_status status = told(line, sizeof line, &length, &right);
    HOLDS((status == CMSPROOF_DONE) == (right.verdict == CMSPROOF_ACCEPTED) && length > 0 && length < sizeof line);
    in_rooms(line, length, status, &right);
    with_refusals(line, length, status, &right);
    begin(0);
    cmsproof_trust_free(&trust);
    cmsproof_answers_free(&answers);
    ended();
    HOLDS(live == 0); /* of the library's blocks none is left */
    printf("%.*s%u %c%u %lu %lu %lu\n", (int)length, line, (unsigned)right.verdict, right.letter ? (char)right.letter : '-',
           (unsigned)right.number, (unsigned long)right.signer, (unsigned long)right.token, (unsigned long)right.line);
    free(record.at), free(file.at), free(content.at), free(listed.at), free(vouched.at);
    return 0;
}
