/* refused TRUST ANSWERS CONTENT TOKEN REQUEST RESPONSE FILE ..: every call, with each of its allocations refused in turn: the n-th alone, and the n-th
   and all behind it, for n = 1, 2, .. up to a call in which none was refused. A call then says NO_MEMORY or the right answer, its
   lists stay as they were (or hold none, if they are read anew), and in the end no block is left. Link it with
   -Wl,--wrap=malloc,--wrap=realloc,--wrap=free,--wrap=calloc. It prints how many calls it made. */
#include "refusing.h"
#include "texts.h"

static struct octets content, token, file;
static struct beside beside;
static cmsproof_trust trust = CMSPROOF_EMPTY;
static cmsproof_answers answers = CMSPROOF_EMPTY;
static cmsproof_answer right;

static void read_lists(void) {
    cmsproof_answer said;
    counting = 1;
    refused_at = 0;
    HOLDS(cmsproof_trust_read(&trust, listed.at, listed.length, &said) == CMSPROOF_DONE);
    HOLDS(cmsproof_answers_read(&answers, asked.at, asked.length, &said) == CMSPROOF_DONE);
    counting = 0;
}

/* The answer of a check in which nothing is refused: it is what it was before. */
static void still_right(void) {
    cmsproof_answer said = checked(&trust, &answers, file, content, content.length > 0, false);
    HOLDS(memcmp(&said, &right, sizeof said) == 0);
}

/* Each of these makes one call, and says whether something was refused in it. */

static int trust_read(long n) {
    cmsproof_answer said = stale();
    size_t count = 99;
    begin(n);
    cmsproof_status status = cmsproof_trust_read(&trust, listed.at, listed.length, &said);
    int refused = ended();
    HOLDS(status == (refused ? CMSPROOF_NO_MEMORY : CMSPROOF_DONE));
    HOLDS(cmsproof_trust_count(&trust, &count) == (refused ? CMSPROOF_NO_LIST : CMSPROOF_DONE) && (count == 0) == refused);
    if (refused) HOLDS(is_nothing(&said) && trust.inside == NULL && !trust.held);
    read_lists();
    return refused;
}

static int answers_read(long n) {
    cmsproof_answer said = stale();
    begin(n);
    cmsproof_status status = cmsproof_answers_read(&answers, asked.at, asked.length, &said);
    int refused = ended();
    HOLDS(status == (refused ? CMSPROOF_NO_MEMORY : CMSPROOF_DONE));
    if (refused) HOLDS(is_nothing(&said) && answers.inside == NULL && !answers.held);
    read_lists();
    return refused;
}

static int trust_read_malformed(long n) {
    static const char text[] = "cmsproof trust 1\nsigner 3\n";
    cmsproof_trust other = CMSPROOF_EMPTY;
    cmsproof_answer said = stale();
    begin(n);
    cmsproof_status status = cmsproof_trust_read(&other, (const uint8_t *)text, sizeof text - 1, &said);
    int refused = ended();
    HOLDS(status == CMSPROOF_MALFORMED || (refused && status == CMSPROOF_NO_MEMORY));
    HOLDS(!other.held && other.inside == NULL);
    return refused;
}

/* The list that is shared, and stays when the handle that it was read into is freed. */
static int trust_share(long n) {
    cmsproof_trust other = CMSPROOF_EMPTY, none = CMSPROOF_EMPTY;
    size_t count = 99, same = 99;
    HOLDS(cmsproof_trust_count(&trust, &count) == CMSPROOF_DONE);
    begin(n);
    cmsproof_status status = cmsproof_trust_share(&trust, &other);
    int refused = ended();
    HOLDS(status == (refused ? CMSPROOF_NO_MEMORY : CMSPROOF_DONE) && other.held == !refused);
    if (!refused) {
        counting = 1;
        refused_at = 0;
        cmsproof_trust_free(&trust);
        HOLDS(cmsproof_trust_count(&other, &same) == CMSPROOF_DONE && same == count);
        HOLDS(cmsproof_trust_share(&none, &other) == CMSPROOF_NO_LIST && !other.held && other.inside == NULL);
        counting = 0;
    }
    read_lists();
    return refused;
}

static int questions(long n) {
    static char text[1 << 18];
    cmsproof_answer said = stale();
    size_t length = 99;
    memset(text, '?', sizeof text);
    begin(n);
    cmsproof_status status = cmsproof_questions(&trust, file.at, file.length, text, sizeof text, &length, &said);
    int refused = ended();
    if (status == CMSPROOF_NO_MEMORY) HOLDS(refused && is_nothing(&said) && length == 0 && text[0] == '?');
    else HOLDS(!refused || status == CMSPROOF_MALFORMED || status == CMSPROOF_REFUSED);
    return refused;
}

static int check(long n) {
    cmsproof_answer said = stale();
    size_t length = 99;
    char line[LINE];
    line[0] = '?';
    begin(n);
    cmsproof_status status = cmsproof_check(&trust, &answers, file.at, file.length, content.at, content.length, content.length > 0,
                                            false, line, sizeof line, &length, &said);
    int refused = ended();
    HOLDS(memcmp(&said, &right, sizeof said) == 0);
    if (refused) HOLDS(status == CMSPROOF_NO_MEMORY && length == 0 && line[0] == '?');
    else HOLDS(status == status_of(&right) && line[0] != '?');
    return refused;
}

static int check_without_line(long n) {
    cmsproof_answer said = stale();
    size_t length = 99;
    char line[1];
    begin(n);
    cmsproof_status status = cmsproof_check(&trust, &answers, file.at, file.length, content.at, content.length, content.length > 0,
                                            false, line, 0, &length, &said);
    int refused = ended();
    HOLDS(!refused && asked_for == 0 && status == status_of(&right) && memcmp(&said, &right, sizeof said) == 0);
    return refused;
}

static int check_token(long n) {
    int accepted = 0, refused = 0;
    for (size_t i = 0; i < paired; i++) {
        cmsproof_answer said = stale();
        begin(n);
        cmsproof_status status = cmsproof_check_token(&trust, &answers, token.at, token.length, pairs[i].signature.at,
                                                      pairs[i].signature.length, false, &said);
        refused |= ended();
        HOLDS(asked_for == 0 && status == status_of(&said));
        accepted += status == CMSPROOF_DONE;
    }
    HOLDS(accepted >= 1);
    return refused;
}

/* The calls that need no list, about the file and the response. */
static int texts(long n) {
    static char text[1 << 18], before[1 << 18];
    int refused = 0;
    for (unsigned call = 0; call < 6 * TEXTS; call++) {
        struct octets octets = call % TEXTS == 9 ? beside.response : call % TEXTS == 11 ? token : file;
        cmsproof_answer all = stale(), said = stale();
        size_t length = 99, size = 99;
        cmsproof_status status = told(call, octets, &beside, before, sizeof before, &length, &all), now;
        memset(text, '?', sizeof text);
        begin(n);
        now = told(call, octets, &beside, text, sizeof text, &size, &said);
        int here = ended();
        refused |= here;
        HOLDS(memcmp(&said, &all, sizeof all) == 0 || (here && is_nothing(&said)));
        if (now == status && size == length && memcmp(text, before, length) == 0 && text[length] == '?') continue;
        /* no text, or in its place what lack of memory is called; a refusal stays one without its line */
        HOLDS(here && (now == CMSPROOF_NO_MEMORY || (now == status && status != CMSPROOF_DONE && size == 0)));
        if (size == 0) HOLDS(text[0] == '?');
        else HOLDS(size == 14 && memcmp(text, "failed memory\n?", 15) == 0);
    }
    return refused;
}

static int (*const made[])(long) = {trust_read, answers_read, trust_read_malformed, trust_share, questions, check, check_without_line, check_token, texts};

static void in_turn(void) {
    for (size_t call = 0; call < sizeof made / sizeof made[0]; call++) {
        for (all_behind = 0; all_behind < 2; all_behind++) {
            long n = 1;
            while (made[call](n++)) {
                still_right();
                HOLDS(n < 10000);
            }
            still_right();
        }
    }
}

int main(int count, char **words) {
    HOLDS(count > 7);
    know(words[1], words[2], words[3]);
    token = of_file(words[4]);
    for (int i = 7; i < count; i++) {
        file = of_file(words[i]);
        content = strstr(words[i], "detached") != NULL ? blob : (struct octets){file.at, 0};
        read_lists();
        beside = (struct beside){file, token, of_file(words[5]), of_file(words[6])};
        right = checked(&trust, &answers, file, content, content.length > 0, false);
        in_turn();
        counting = 1;
        cmsproof_trust_free(&trust);
        cmsproof_answers_free(&answers);
        counting = 0;
        HOLDS(live == 0); /* of the library's blocks none is left */
        free(file.at);
        free(beside.request.at);
        free(beside.response.at);
    }
    printf("refused: %ld calls\n", calls);
    return 0;
}
