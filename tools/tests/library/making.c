/* making FOLDER: the calls that make and renew evidence records, of the files that making_inputs.py put into FOLDER. Each is made in
   much room, in none, in just enough and in too little; without a tree; and with each of its allocations refused in turn. What is made
   is what it must be: the root, the leaves, and of a record that is renewed already its own octets. FOLDER gets the records, in
   NAME.new. Link it with -Wl,--wrap=malloc,--wrap=realloc,--wrap=free. It prints how many calls it made. */
#include "common.h"
#include "refusing.h"

#define ROOM ((size_t)1 << 15)

static cmsproof_tree tree = CMSPROOF_EMPTY;
static const char *name;
static struct octets digest, old, token;
static bool alone;
static uint8_t text[ROOM], other[ROOM];

/* The calls, by what they write. */
typedef cmsproof_status making(uint8_t *at, size_t room, size_t *length, cmsproof_answer *said);

static cmsproof_status root(uint8_t *at, size_t room, size_t *length, cmsproof_answer *said) {
    return cmsproof_tree_root(&tree, at, room, length, said);
}

static cmsproof_status made(uint8_t *at, size_t room, size_t *length, cmsproof_answer *said) {
    return cmsproof_evidence_make(&tree, digest.at, digest.length, token.at, token.length, at, room, length, said);
}

static cmsproof_status algorithm(uint8_t *at, size_t room, size_t *length, cmsproof_answer *said) {
    return cmsproof_evidence_renew_algorithm(old.at, old.length, (char *)at, room, length, said);
}

static cmsproof_status leaf(uint8_t *at, size_t room, size_t *length, cmsproof_answer *said) {
    return cmsproof_evidence_renew_leaf(old.at, old.length, name, strlen(name), token.at, token.length, at, room, length, said);
}

static cmsproof_status renewed(uint8_t *at, size_t room, size_t *length, cmsproof_answer *said) {
    return cmsproof_evidence_renew(&tree, old.at, old.length, token.at, token.length, at, room, length, said);
}

static cmsproof_status new_leaf(uint8_t *at, size_t room, size_t *length, cmsproof_answer *said) {
    return cmsproof_evidence_rehash_leaf(old.at, old.length, name, strlen(name), digest.at, digest.length, alone, token.at, token.length, at,
                                         room, length, said);
}

static cmsproof_status rehashed(uint8_t *at, size_t room, size_t *length, cmsproof_answer *said) {
    return cmsproof_evidence_rehash(&tree, old.at, old.length, digest.at, digest.length, alone, token.at, token.length, at, room, length,
                                    said);
}

static int alike(const cmsproof_answer *one, const cmsproof_answer *another) { return memcmp(one, another, sizeof *one) == 0; }

/* In no room, in just enough, and in too little, behind whose end nothing may be written. A refusal keeps its status. */
static void in_rooms(making *call, cmsproof_status status, size_t length, const cmsproof_answer *right) {
    uint8_t *at = (uint8_t *)malloc(length);
    size_t size = 99;
    cmsproof_answer said = stale();
    cmsproof_status cut = status == CMSPROOF_DONE ? CMSPROOF_NO_ROOM : status;
    HOLDS(at != NULL && call(at, 0, &size, &said) == cut && size == length && alike(&said, right));
    said = stale();
    HOLDS(call(at, length, &size, &said) == status && size == length && memcmp(at, text, length) == 0 && alike(&said, right));
    at[0] = '?';
    said = stale();
    HOLDS(call(at, length - 1, &size, &said) == cut && size == length && at[0] == '?' && alike(&said, right));
    free(at);
}

/* With each allocation refused: the call says so, or what is right; the tree stays. */
static void with_refusals(making *call, cmsproof_status status, size_t length, const cmsproof_answer *right) {
    for (all_behind = 0; all_behind < 2; all_behind++) {
        int refused = 1;
        for (long n = 1; refused; n++) {
            HOLDS(n < 10000);
            size_t size = 99;
            cmsproof_answer said = stale();
            memset(other, '?', ROOM);
            begin(n);
            cmsproof_status now = call(other, ROOM, &size, &said);
            refused = ended();
            if (now == status && size == length && memcmp(other, text, length) == 0 && other[length] == '?') {
                HOLDS(alike(&said, right));
                continue;
            }
            /* a refusal stays one without its line */
            HOLDS(refused && (now == CMSPROOF_NO_MEMORY ? is_nothing(&said) : now == status && status != CMSPROOF_DONE && alike(&said, right)));
            if (size == 0) HOLDS(other[0] == '?');
            else HOLDS(size == 14 && memcmp(other, "failed memory\n?", 15) == 0);
        }
    }
}

/* What a call says, which is then in `text`: with this status, by the rule U with this number, or by no rule. */
static size_t told(making *call, cmsproof_status status, unsigned rule) {
    size_t length = 99;
    cmsproof_answer said = stale();
    memset(text, '?', ROOM);
    begin(0);
    HOLDS(call(text, ROOM, &length, &said) == status && length > 0 && length < ROOM && text[length] == '?');
    ended();
    HOLDS((said.verdict == CMSPROOF_WRITTEN) == (status == CMSPROOF_DONE));
    if (rule > 0) HOLDS(said.verdict == CMSPROOF_REFUSES && said.letter == 'U' && said.number == rule);
    in_rooms(call, status, length, &said);
    with_refusals(call, status, length, &said);
    return length;
}

/* Nothing is told by a handle that holds no tree. */
static void nothing_told(void) {
    making *const calls_by_a_tree[] = {root, made, renewed, rehashed};
    HOLDS(!tree.held && tree.inside == NULL);
    for (size_t i = 0; i < sizeof calls_by_a_tree / sizeof calls_by_a_tree[0]; i++) {
        size_t length = 99;
        cmsproof_answer said = stale();
        text[0] = '?';
        HOLDS(calls_by_a_tree[i](text, ROOM, &length, &said) == CMSPROOF_NO_LIST && length == 0 && text[0] == '?' && is_nothing(&said));
    }
}

/* The tree over digests, in place of the one before, with each allocation refused in turn, and then with none. */
static void over(const uint8_t *digests, size_t length) {
    for (all_behind = 0; all_behind < 2; all_behind++) {
        int refused = 1;
        for (long n = 1; refused; n++) {
            HOLDS(n < 10000);
            cmsproof_answer said = stale();
            begin(n);
            cmsproof_status status = cmsproof_tree_make(&tree, name, strlen(name), digests, length, &said);
            refused = ended();
            HOLDS(status == (refused ? CMSPROOF_NO_MEMORY : CMSPROOF_DONE) && tree.held == !refused);
            if (refused) {
                HOLDS(is_nothing(&said));
                nothing_told();
            } else HOLDS(said.verdict == CMSPROOF_WRITTEN);
        }
    }
}

/* No tree: of digests that are none, or by a name that no algorithm has. What the handle held before is freed. */
static void over_nothing(void) {
    static const char *const names[] = {"", "SHA256", "sha256 ", "sha3-256", "\xff"};
    const struct { size_t name; size_t length; } given[] = {{0, 0}, {0, digest.length - 1}, {0, 1}, {1, digest.length}};
    for (size_t i = 0; i < sizeof given / sizeof given[0]; i++) {
        for (size_t j = 0; j < (given[i].name ? sizeof names / sizeof names[0] : 1); j++) {
            const char *by = given[i].name ? names[j] : name;
            cmsproof_answer said = stale();
            over(digest.at, digest.length);
            begin(0);
            HOLDS(cmsproof_tree_make(&tree, by, strlen(by), digest.at, given[i].length, &said) == CMSPROOF_USAGE && is_nothing(&said));
            ended();
            nothing_told();
        }
    }
}

static struct octets file_in(const char *folder, const char *of, const char *ending) {
    char path[4096];
    HOLDS(snprintf(path, sizeof path, "%s/%s.%s", folder, of, ending) < (int)sizeof path);
    return of_file(path);
}

static void know(const char *folder, const char *of, const char *by) {
    digest = file_in(folder, of, "digest"), old = file_in(folder, of, "old"), token = file_in(folder, of, "token");
    name = by;
}

/* Puts what was made into a file, frees the tree twice and the files, and sees that no block is left. */
static void done(const char *folder, const char *of, size_t length) {
    char path[4096];
    HOLDS(snprintf(path, sizeof path, "%s/%s.new", folder, of) < (int)sizeof path);
    FILE *file = fopen(path, "wb");
    HOLDS(file != NULL && fwrite(text, 1, length, file) == length && fclose(file) == 0);
    begin(0);
    cmsproof_tree_free(&tree);
    cmsproof_tree_free(&tree);
    ended();
    nothing_told();
    HOLDS(live == 0);
    free(digest.at), free(old.at), free(token.at);
}

/* A call by a token that is none, that is cut, and that is of another root; then by the right one. */
static size_t by_tokens(making *call, const char *folder) {
    struct octets right = token, another = file_in(folder, call == made ? "renew" : "make", "token");
    uint8_t none[1];
    token.at = none, token.length = 0;
    told(call, CMSPROOF_REFUSED, 7);
    token.at = right.at, token.length = right.length - 1;
    told(call, CMSPROOF_REFUSED, 7);
    token = another;
    told(call, CMSPROOF_REFUSED, 8);
    token = right;
    free(another.at);
    return told(call, CMSPROOF_DONE, 0);
}

/* The record that is renewed already stays. */
static void stays(making *call, size_t length) {
    struct octets before = old;
    uint8_t *kept = (uint8_t *)malloc(length);
    HOLDS(kept != NULL);
    memcpy(kept, text, length);
    old.at = kept, old.length = length;
    HOLDS(told(call, CMSPROOF_DONE, 0) == length && memcmp(text, kept, length) == 0);
    old = before;
    free(kept);
}

static void make(const char *folder) {
    know(folder, "make", "sha256");
    nothing_told();
    over_nothing();
    over(digest.at, digest.length);
    HOLDS(told(root, CMSPROOF_DONE, 0) == digest.length && memcmp(text, digest.at, digest.length) == 0);
    digest.at[0] ^= 1;
    HOLDS(told(made, CMSPROOF_USAGE, 0) == 13 && memcmp(text, "usage digest\n", 13) == 0);
    digest.at[0] ^= 1;
    digest.length--;
    told(made, CMSPROOF_USAGE, 0);
    digest.length++;
    done(folder, "make", by_tokens(made, folder));
}

static void renew(const char *folder) {
    uint8_t its[64];
    know(folder, "renew", "sha256");
    HOLDS(told(algorithm, CMSPROOF_DONE, 0) == 6 && memcmp(text, "sha256", 6) == 0);
    name = "sha512";
    told(leaf, CMSPROOF_REFUSED, 4);
    name = "sha-256";
    HOLDS(told(leaf, CMSPROOF_USAGE, 0) == 10 && memcmp(text, "usage alg\n", 10) == 0);
    name = "sha256";
    size_t length = told(leaf, CMSPROOF_DONE, 0);
    HOLDS(length == 32);
    memcpy(its, text, length);
    over(digest.at, digest.length);
    HOLDS(told(renewed, CMSPROOF_USAGE, 0) == 13 && memcmp(text, "usage record\n", 13) == 0);
    over(its, length);
    old.length--;
    told(renewed, CMSPROOF_MALFORMED, 0);
    old.length++;
    length = by_tokens(renewed, folder);
    stays(renewed, length);
    done(folder, "renew", length);
}

/* For a further data object the record's one value is too few, unless it is of these alone; a digest that is cut is none. */
static void rehash_two(const uint8_t *its) {
    struct octets one = digest;
    uint8_t two[128];
    memcpy(two, one.at, 64), memset(two + 64, 'd', 64);
    digest.at = two, digest.length = sizeof two;
    told(new_leaf, CMSPROOF_REFUSED, 11);
    told(rehashed, CMSPROOF_REFUSED, 11);
    alone = true;
    HOLDS(told(new_leaf, CMSPROOF_DONE, 0) == 64 && memcmp(text, its, 64) != 0);
    HOLDS(told(rehashed, CMSPROOF_USAGE, 0) == 13 && memcmp(text, "usage record\n", 13) == 0);
    alone = false;
    digest.length--;
    HOLDS(told(new_leaf, CMSPROOF_USAGE, 0) == 13 && memcmp(text, "usage digest\n", 13) == 0);
    told(rehashed, CMSPROOF_USAGE, 0);
    digest = one;
}

static void rehash(const char *folder) {
    uint8_t its[64];
    know(folder, "rehash", "sha512");
    size_t length = told(new_leaf, CMSPROOF_DONE, 0);
    HOLDS(length == 64);
    memcpy(its, text, length);
    over(its, length);
    digest.length--;
    HOLDS(told(new_leaf, CMSPROOF_USAGE, 0) == 13 && memcmp(text, "usage digest\n", 13) == 0);
    told(rehashed, CMSPROOF_USAGE, 0);
    digest.length++;
    rehash_two(its);
    old.length--;
    told(new_leaf, CMSPROOF_MALFORMED, 0);
    told(rehashed, CMSPROOF_MALFORMED, 0);
    old.length++;
    told(renewed, CMSPROOF_REFUSED, 4);
    length = by_tokens(rehashed, folder);
    stays(rehashed, length);
    done(folder, "rehash", length);
}

int main(int count, char **words) {
    HOLDS(count == 2);
    make(words[1]);
    renew(words[1]);
    rehash(words[1]);
    printf("making: %ld calls\n", calls);
    return 0;
}
