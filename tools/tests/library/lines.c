/* lines TRUST ANSWERS FILE [CONTENT]: prints what the library says of a file: its line, and the answer in numbers. Where the calls
   are made in a wrong order, or handed room that does not do, it looks that no answer is `accepted`. It ends with status 0 where
   all of that held, and by `abort` and the line of this file where something did not. */
#include "common.h"

/* Calls with handles that hold nothing: no verdict, and nothing of the answer that was there. */
static void without_lists(cmsproof_trust *trust, cmsproof_answers *answers, struct octets file) {
    cmsproof_answer answer = stale();
    char text[200] = "accepted 20240115100000Z\n";
    size_t length = 99;
    cmsproof_status status = cmsproof_check(trust, answers, file.at, file.length, (const uint8_t *)"", 0, false, false, text,
                                            sizeof text, &length, &answer);
    HOLDS(status == CMSPROOF_NO_LIST && is_nothing(&answer) && length == 0);
}

static void wrong_orders(struct octets list, struct octets asked, struct octets file) {
    cmsproof_trust trust = CMSPROOF_EMPTY;
    cmsproof_answers answers = CMSPROOF_EMPTY;
    cmsproof_answer answer = stale();
    size_t count = 99;
    without_lists(&trust, &answers, file);
    cmsproof_trust_free(&trust);
    cmsproof_answers_free(&answers);
    HOLDS(cmsproof_trust_count(&trust, &count) == CMSPROOF_NO_LIST && count == 0);
    HOLDS(cmsproof_trust_read(&trust, list.at, list.length, &answer) == CMSPROOF_DONE);
    HOLDS(answer.verdict == CMSPROOF_WRITTEN);
    without_lists(&trust, &answers, file);
    HOLDS(cmsproof_trust_count(&trust, &count) == CMSPROOF_DONE && count > 0);
    HOLDS(cmsproof_answers_read(&answers, asked.at, asked.length, &answer) == CMSPROOF_DONE);
    /* a list that is refused leaves none, and not the one before it */
    HOLDS(cmsproof_trust_read(&trust, (const uint8_t *)"cmsproof trust 1\nsigner 3\n", 26, &answer) == CMSPROOF_MALFORMED);
    HOLDS(answer.verdict == CMSPROOF_IS_MALFORMED && answer.letter == 'L' && answer.number == 2 && answer.line == 2);
    without_lists(&trust, &answers, file);
    HOLDS(cmsproof_trust_read(&trust, list.at, list.length, &answer) == CMSPROOF_DONE);
    HOLDS(cmsproof_answers_read(&answers, (const uint8_t *)"", 0, &answer) == CMSPROOF_MALFORMED);
    HOLDS(answer.letter == 'B' && answer.number == 1 && answer.line == 1);
    without_lists(&trust, &answers, file);
    /* read again over what is held, and freed twice */
    HOLDS(cmsproof_answers_read(&answers, asked.at, asked.length, &answer) == CMSPROOF_DONE);
    HOLDS(cmsproof_answers_read(&answers, asked.at, asked.length, &answer) == CMSPROOF_DONE);
    cmsproof_trust_free(&trust);
    cmsproof_trust_free(&trust);
    without_lists(&trust, &answers, file);
    cmsproof_answers_free(&answers);
    cmsproof_answers_free(&answers);
    without_lists(&trust, &answers, file);
}

/* The answer, asked for in each room from none to one octet more than the line. */
static void in_each_room(cmsproof_trust *trust, cmsproof_answers *answers, struct octets file, struct octets content, bool given) {
    cmsproof_answer first = stale(), answer;
    char line[200];
    size_t length = 99, size;
    cmsproof_status done = cmsproof_check(trust, answers, file.at, file.length, content.at, content.length, given, false, line,
                                          sizeof line, &length, &first);
    HOLDS(length > 0 && length < sizeof line && line[length - 1] == '\n');
    HOLDS((done == CMSPROOF_DONE) == (first.verdict == CMSPROOF_ACCEPTED));
    HOLDS((done == CMSPROOF_DONE) == (strncmp(line, "accepted ", 9) == 0));
    fwrite(line, 1, length, stdout);
    for (size_t room = 0; room <= length + 1; room++) {
        char *text = (char *)malloc(room > 0 ? room : 1);
        HOLDS(text != NULL);
        memset(text, '?', room > 0 ? room : 1);
        answer = stale();
        cmsproof_status status = cmsproof_check(trust, answers, file.at, file.length, content.at, content.length, given, false,
                                                text, room, &size, &answer);
        HOLDS(memcmp(&answer, &first, sizeof answer) == 0);
        if (room == 0) HOLDS(status == done && size == 0);
        else if (room < length) HOLDS(status == CMSPROOF_NO_ROOM && size == length && text[0] == '?' && text[room - 1] == '?');
        else HOLDS(status == done && size == length && memcmp(text, line, length) == 0 && (room == length || text[length] == '?'));
        free(text);
    }
    printf("%u %c%u inner %u kind %u at %llu signer %llu token %llu line %llu seconds %lld nanoseconds %u\n", first.verdict,
           first.letter != 0 ? (int)first.letter : '-', first.number, first.inner, first.kind, (unsigned long long)first.at,
           (unsigned long long)first.signer, (unsigned long long)first.token, (unsigned long long)first.line,
           (long long)first.seconds, first.nanoseconds);
}

int main(int count, char **words) {
    HOLDS(count == 4 || count == 5);
    struct octets list = of_file(words[1]), asked = of_file(words[2]), file = of_file(words[3]);
    struct octets content = {(uint8_t *)malloc(1), 0};
    if (count == 5) {
        free(content.at);
        content = of_file(words[4]);
    }
    wrong_orders(list, asked, file);
    cmsproof_trust trust = CMSPROOF_EMPTY;
    cmsproof_answers answers = CMSPROOF_EMPTY;
    cmsproof_answer answer;
    HOLDS(cmsproof_trust_read(&trust, list.at, list.length, &answer) == CMSPROOF_DONE);
    HOLDS(cmsproof_answers_read(&answers, asked.at, asked.length, &answer) == CMSPROOF_DONE);
    free(list.at); /* nothing is kept of the caller's memory */
    free(asked.at);
    in_each_room(&trust, &answers, file, content, count == 5);
    cmsproof_trust_free(&trust);
    cmsproof_answers_free(&answers);
    free(file.at);
    free(content.at);
    return 0;
}
