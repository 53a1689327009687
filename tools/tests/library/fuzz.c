/* A driver for libFuzzer: octets as a file, a content, a token, a stamped text, a trust list and an answers list. The first octet
   of an input picks the call, the second one its choices; the rest lies right before memory that may not be read. `fuzz.sh` builds
   and runs it. The environment has the names of the trust list (TRUST), of an answers list (ANSWERS), of the content of the real
   files (CONTENT), of one of the files that they accept (FILE) and of its token (TOKEN), of a request (REQUEST) and its response (RESPONSE).

   Its guides are the blocks of the assembly that fuzz.sh counts, and what the answers say (`reached`). */
#define _DEFAULT_SOURCE
#include "texts.h"
#include <sys/mman.h>
#include <unistd.h>

__attribute__((section("__libfuzzer_extra_counters"))) static uint8_t reached[1 << 14];

/* of the assembly: a counter for each of its blocks, and which were ever reached */
extern uint8_t blocks[];
extern const uint64_t block_count;
static uint8_t *ever;

static struct octets good, token;
static struct beside right;
static cmsproof_trust trust = CMSPROOF_EMPTY;
static cmsproof_answers answers = CMSPROOF_EMPTY;

#define REGION ((size_t)1 << 20)

/* A region with memory behind it that may not be touched. */
static uint8_t *region(void) {
    size_t page = (size_t)sysconf(_SC_PAGESIZE);
    uint8_t *at = (uint8_t *)mmap(NULL, REGION + page, PROT_READ | PROT_WRITE, MAP_PRIVATE | MAP_ANONYMOUS, -1, 0);
    HOLDS(at != MAP_FAILED && mprotect(at + REGION, page, PROT_NONE) == 0);
    return at;
}

/* The octets, in front of memory that may not be touched. */
static struct octets guarded(const uint8_t *data, size_t size) {
    static uint8_t *at;
    if (at == NULL) at = region();
    HOLDS(size <= REGION);
    if (size > 0) memcpy(at + REGION - size, data, size);
    return (struct octets){at + REGION - size, size};
}

static void reach(uint32_t call, const cmsproof_answer *said) {
    uint64_t where = said->at == 0 ? 0 : 1 + (said->at > 64) + (said->at > 512) + (said->at > 2048);
    uint64_t mix = call;
    mix = mix * 31 + said->verdict;
    mix = mix * 31 + said->letter;
    mix = mix * 31 + said->number;
    mix = mix * 31 + said->inner;
    mix = mix * 31 + said->kind;
    mix = mix * 31 + where;
    reached[(mix * UINT64_C(0x9e3779b97f4a7c15)) >> 50] = 1;
}

/* The questions of a file: in no room, in too little, and in as much as they need. */
static void fuzz_questions(struct octets file) {
    static uint8_t *at;
    if (at == NULL) at = region();
    cmsproof_answer said = stale(), again = stale();
    size_t length = 9999, size = 9999;
    cmsproof_status status = cmsproof_questions(&trust, file.at, file.length, (char *)at, 0, &length, &said);
    holds_together(&said);
    reach(1, &said);
    if (status != CMSPROOF_NO_ROOM) {
        HOLDS(status == CMSPROOF_REFUSED || status == CMSPROOF_MALFORMED);
        HOLDS(length == 0 && said.letter == 'Q' && said.number == (status == CMSPROOF_REFUSED ? 2 : 1));
        return;
    }
    HOLDS(said.verdict == CMSPROOF_WRITTEN && length >= 21 && length <= REGION);
    uint8_t *text = at + REGION - length;
    text[0] = '?';
    HOLDS(cmsproof_questions(&trust, file.at, file.length, (char *)text, length - 1, &size, &again) == CMSPROOF_NO_ROOM);
    HOLDS(size == length && text[0] == '?' && memcmp(&said, &again, sizeof said) == 0);
    HOLDS(cmsproof_questions(&trust, file.at, file.length, (char *)text, length, &size, &again) == CMSPROOF_DONE);
    HOLDS(size == length && memcmp(text, "cmsproof questions 1\n", 21) == 0 && text[length - 1] == '\n');
    /* what vouches for all of it can be read as an answers list */
    memcpy(text, "cmsproof answers 1\n\n\n", 21);
    cmsproof_answers all = CMSPROOF_EMPTY;
    HOLDS(cmsproof_answers_read(&all, text, length, &again) == CMSPROOF_DONE);
    cmsproof_answers_free(&all);
}

static void fuzz_file(struct octets file, uint8_t choices) {
    struct octets none = {file.at + file.length, 0}, contents[] = {none, blob, none, file};
    bool given = (choices & 3) != 0;
    fuzz_questions(file);
    cmsproof_answer said = checked(&trust, &answers, file, contents[choices & 3], given, (choices & 4) != 0);
    reach(2, &said);
    if (said.verdict == CMSPROOF_ACCEPTED) may_be_accepted(file, contents[choices & 3], given);
}

static void fuzz_content(struct octets content, uint8_t choices) {
    cmsproof_answer said = checked(&trust, &answers, good, content, true, (choices & 4) != 0);
    reach(3, &said);
    HOLDS(said.verdict != CMSPROOF_ACCEPTED || (content.length == blob.length && memcmp(content.at, blob.at, blob.length) == 0));
}

/* A token, or a text that is stamped. */
static void fuzz_token(struct octets given, uint8_t choices) {
    for (size_t i = 0; i < paired; i++) {
        cmsproof_answer said = stale();
        struct octets tested = choices & 1 ? token : given, stamped = choices & 1 ? given : pairs[i].signature;
        cmsproof_status status = cmsproof_check_token(&trust, &answers, tested.at, tested.length, stamped.at, stamped.length,
                                                      (choices & 4) != 0, &said);
        holds_together(&said);
        reach(4, &said);
        HOLDS(status == status_of(&said) && status != CMSPROOF_MALFORMED && status != CMSPROOF_NO_LIST);
        if (status == CMSPROOF_DONE) {
            int known = 0;
            for (size_t j = 0; j < paired; j++)
                known |= pairs[j].signature.length == stamped.length && memcmp(pairs[j].signature.at, stamped.at, stamped.length) == 0;
            HOLDS(known && signatures_in(tested) >= 1);
        }
        if (choices & 1) break;
    }
}

static int has_hex(struct octets octets, struct octets text) {
    static const char digits[] = "0123456789abcdef";
    struct octets hex = {(uint8_t *)malloc(2 * octets.length + 1), 2 * octets.length}, low = {(uint8_t *)malloc(text.length + 1), text.length};
    HOLDS(hex.at != NULL && low.at != NULL);
    for (size_t i = 0; i < octets.length; i++) {
        hex.at[2 * i] = (uint8_t)digits[octets.at[i] >> 4];
        hex.at[2 * i + 1] = (uint8_t)digits[octets.at[i] & 15];
    }
    for (size_t i = 0; i < text.length; i++)
        low.at[i] = text.at[i] >= 'A' && text.at[i] <= 'F' ? (uint8_t)(text.at[i] + 32) : text.at[i];
    int has = stands_in(hex, low);
    free(hex.at);
    free(low.at);
    return has;
}

/* A list that is refused is none; one that is read accepts a file only if it has the keys, or the signatures, of two pairs. */
static void fuzz_list(struct octets list, bool of_trust) {
    cmsproof_trust other = CMSPROOF_EMPTY;
    cmsproof_answers others = CMSPROOF_EMPTY;
    cmsproof_answer said = stale();
    size_t count = 9999, has = 0;
    cmsproof_status status = of_trust ? cmsproof_trust_read(&other, list.at, list.length, &said)
                                      : cmsproof_answers_read(&others, list.at, list.length, &said);
    reach(of_trust ? 5 : 6, &said);
    HOLDS(status == CMSPROOF_DONE || status == CMSPROOF_MALFORMED);
    if (status == CMSPROOF_DONE) HOLDS(said.verdict == CMSPROOF_WRITTEN && said.line == 0);
    else HOLDS(said.verdict == CMSPROOF_IS_MALFORMED && said.letter == (of_trust ? 'L' : 'B') && said.line >= 1);
    if (of_trust) HOLDS(cmsproof_trust_count(&other, &count) == (status == CMSPROOF_DONE ? CMSPROOF_DONE : CMSPROOF_NO_LIST));
    if (of_trust && status != CMSPROOF_DONE) HOLDS(count == 0);
    cmsproof_answer verdict = checked(of_trust ? &other : &trust, of_trust ? &answers : &others, good, blob, true, false);
    HOLDS((status == CMSPROOF_DONE) == (verdict.verdict != CMSPROOF_NONE));
    if (verdict.verdict == CMSPROOF_ACCEPTED) {
        for (size_t i = 0; i < paired; i++) has += (size_t)has_hex(of_trust ? pairs[i].key : pairs[i].signature, list);
        HOLDS(has >= 2);
    }
    cmsproof_trust_free(&other);
    cmsproof_answers_free(&others);
}

/* The calls that need no list. */
static void fuzz_texts(struct octets octets, uint8_t choices) {
    static uint8_t *at;
    if (at == NULL) at = region();
    cmsproof_answer said;
    cmsproof_status status = in_rooms(choices, octets, &right, at, REGION, &said);
    reach(7 + choices % TEXTS, &said);
    /* what is made of a token is accepted only where the file already would be, or the token is one that is vouched for */
    if (status == CMSPROOF_DONE && choices % TEXTS == 11) HOLDS(stands_in(octets, (struct octets){at, REGION}));
}

/* A real file with some octets changed: five octets of the input each, a place, a value, and how many octets are cut there. */
static void fuzz_changes(struct octets changes, uint8_t choices) {
    uint8_t *copy = (uint8_t *)malloc(good.length);
    size_t length = good.length;
    HOLDS(copy != NULL);
    memcpy(copy, good.at, length);
    for (size_t i = 0; i + 4 <= changes.length && i < 64; i += 4) {
        size_t at = (size_t)(changes.at[i] * 256 + changes.at[i + 1]) % length, cut = changes.at[i + 3] & 7;
        copy[at] = changes.at[i + 2];
        if (changes.at[i + 3] < 128 || cut > length - at || length - cut == 0) continue;
        memmove(copy + at, copy + at + cut, length - at - cut);
        length -= cut;
    }
    fuzz_file(guarded(copy, length), (uint8_t)(choices | 1));
    free(copy);
}

static const char *named(const char *name) {
    HOLDS(getenv(name) != NULL);
    return getenv(name);
}

/* Keeps which blocks were reached, which libFuzzer forgets after each input. */
static void keep_reached(void) {
    for (uint64_t i = 0; i < block_count; i++) ever[i] |= blocks[i];
}

static void say_reached(void) {
    uint64_t count = 0;
    for (uint64_t i = 0; i < block_count; i++) count += ever[i] != 0;
    fprintf(stderr, "fuzz.c: reached %llu of %llu blocks\n", (unsigned long long)count, (unsigned long long)block_count);
}

int LLVMFuzzerInitialize(int *count, char ***words);
int LLVMFuzzerInitialize(int *count, char ***words) {
    (void)count;
    (void)words;
    cmsproof_answer said;
    ever = (uint8_t *)calloc(block_count, 1);
    HOLDS(ever != NULL && atexit(say_reached) == 0);
    know(named("TRUST"), named("ANSWERS"), named("CONTENT"));
    good = of_file(named("FILE"));
    token = of_file(named("TOKEN"));
    right = (struct beside){good, token, of_file(named("REQUEST")), of_file(named("RESPONSE"))};
    HOLDS(cmsproof_trust_read(&trust, listed.at, listed.length, &said) == CMSPROOF_DONE);
    HOLDS(cmsproof_answers_read(&answers, asked.at, asked.length, &said) == CMSPROOF_DONE);
    /* the tests below would not see a library that accepts nothing */
    HOLDS(checked(&trust, &answers, good, blob, true, false).verdict == CMSPROOF_ACCEPTED);
    return 0;
}

int LLVMFuzzerTestOneInput(const uint8_t *data, size_t size);
int LLVMFuzzerTestOneInput(const uint8_t *data, size_t size) {
    if (size < 2) return 0;
    struct octets octets = guarded(data + 2, size - 2);
    switch (data[0] % 8) {
    case 0: fuzz_file(octets, data[1]); break;
    case 1: fuzz_content(octets, data[1]); break;
    case 2: fuzz_token(octets, data[1]); break;
    case 3: fuzz_list(octets, true); break;
    case 4: fuzz_list(octets, false); break;
    case 5: fuzz_changes(octets, data[1]); break;
    case 6: fuzz_texts(octets, data[1]); break;
    default: fuzz_token(octets, (uint8_t)(data[1] & ~1)); break;
    }
    keep_reached();
    /* nothing writes to what it reads; changes were laid there themselves */
    HOLDS(octets.length == 0 || data[0] % 8 == 5 || memcmp(octets.at, data + 2, octets.length) == 0);
    return 0;
}
