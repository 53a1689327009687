/* The checker of cmsproof, for C99 and C++.
 *
 * What each call answers is proved, as it is of the program: crates/cmsproof_c states it over what these pointers hold.
 *
 * What is promised of every call
 *   It returns one of the statuses below, and never 0. It does not abort, print, wait, start a thread, open a file or read a
 *   clock, and it keeps no pointer to the caller's memory once it has returned.
 *   Whatever the status is, it writes the whole struct `answer` and `*length` first: nothing of an earlier call stays in them.
 *   A struct of zeros says CMSPROOF_NONE, which is no verdict.
 *
 * What the caller owes at every call
 *   No pointer is null, and each is aligned as its type is; an empty text is any other pointer with the length 0, as "". A length
 *   is at most that of the memory at its pointer, and below 2^63. A `bool` is 0 or 1, also where another language hands it in.
 *   What one call writes overlaps nothing else that is handed to it. A list or a tree is CMSPROOF_EMPTY before its first call: a
 *   struct that nobody set is taken for one that holds a list, which is then freed.
 *   While a call runs, nobody changes, frees or unmaps what it was handed, or cuts a file that is mapped there, and nobody else
 *   uses a handle that it was handed. So a handle is for one call at a time, in any thread; threads that check at once have a handle
 *   each, which may hold one list (cmsproof_trust_share). A handle goes from thread to thread by a lock, by the start or the end of
 *   a thread, or by an atomic that is sequentially consistent.
 *   No call is made from a signal handler, or left by `longjmp` or the end of its thread, or made in a forked child of a
 *   process that had several threads; a child of one that had only one thread has lists of its own, as it has memory.
 *   `malloc`, `realloc` and `free` come from one allocator, and return. There are 128 KiB of stack.
 *   Nothing checks these; a call that breaks them may do anything. `errno` says nothing after a call.
 *
 * Texts
 *   A call that makes a text takes `text` and `room`, the octets that may be written there, and sets `*length` to those that
 *   the text has. If they are more than `room`, it returns CMSPROOF_NO_ROOM and writes none of it: the same call with room for
 *   `*length` gets it. No zero octet is put behind a text. A text is a line or lines that the program prints (docs/LINES.md),
 *   with their line feeds, or the octets of a file that it writes.
 *   A call that judges (check, fit, compare, match) tells its verdict by a line, whatever the verdict is: with `room` 0 it makes
 *   no line, and returns the status of the verdict.
 *   A call that makes a text (questions, request, token, attach, show, and those that make and renew evidence records) returns
 *   CMSPROOF_DONE only with the whole text. With `room` 0 it says the length alone. If it is refused, all of these but those of
 *   questions have the line that says why as their text: it is written if `*length` is at most `room`, and the status stays that of
 *   the refusal.
 *   So what such a call wrote is a token, a file, a record or a request only if the status is CMSPROOF_DONE: look before you keep it.
 *   Without memory for a refusal's line, `*length` is 0; with NO_MEMORY the text is as it was, or the line `failed memory`.
 */
#ifndef CMSPROOF_H
#define CMSPROOF_H

#include <stdbool.h>
#include <stddef.h>
#include <stdint.h>

#ifdef __cplusplus
extern "C" {
#endif

/* The version of this file. cmsproof_version is that of the library; they fit together if the first numbers agree. */
#define CMSPROOF_VERSION UINT32_C(0x00010000)

/* How a call ended. Those that the program has too are its exit statuses, each one more. */
typedef uint32_t cmsproof_status;
#define CMSPROOF_DONE UINT32_C(1)      /* it did what it says; of a check: accepted */
#define CMSPROOF_REFUSED UINT32_C(2)   /* a rule refuses; of a comparison: different, or a collision */
#define CMSPROOF_MALFORMED UINT32_C(3) /* octets are not of the form that they should have, or a list is refused */
#define CMSPROOF_USAGE UINT32_C(4)     /* a value that a call takes is not as it must be, or no type to show */
#define CMSPROOF_FAILED UINT32_C(5)    /* a content has more than 2^40 octets */
#define CMSPROOF_NO_ROOM UINT32_C(6)   /* the text is longer than its room; `*length` would do */
#define CMSPROOF_NO_MEMORY UINT32_C(7) /* memory was refused */
#define CMSPROOF_NO_LIST UINT32_C(8)   /* a list or a tree that was handed in holds none: it was never read, refused, or freed */

/* What a call says, in numbers. 0 in any field: it does not apply. */
typedef struct cmsproof_answer {
    uint32_t verdict;     /* one of those below */
    uint32_t letter;      /* of the code of the rule, as 'S' of S9; of W4 'K', and the numbers are those of the token's rule */
    uint32_t number;      /* of the code of the rule, as 9 */
    uint32_t inner;       /* K5, E4: the number of the rule S1 to S6 that fails */
    uint32_t kind;        /* of a fault of form: 1 to 15 for M1 to M15, and `at` is its octet, from 0 */
    uint32_t nanoseconds; /* accepted: the fraction of the moment's second */
    int64_t seconds;      /* accepted: the moment's whole seconds from 1970-01-01 00:00:00 UTC, negative before it */
    uint64_t at;          /* of a fault of form, if `kind` is not 0 */
    uint64_t signer;      /* the signer's number, from 1; of a file that fits, how many; of an evidence record the chain's */
    uint64_t token;       /* the token's number, from 1; of an evidence record the archive time-stamp's in its chain */
    uint64_t line;        /* the line of a list, from 1; of two inputs, which one, 1 or 2; of a record beside a file 2 */
} cmsproof_answer;

#define CMSPROOF_NONE UINT32_C(0) /* no verdict: the call could not be made */
#define CMSPROOF_ACCEPTED UINT32_C(1)
#define CMSPROOF_REFUSES UINT32_C(2)
#define CMSPROOF_IS_MALFORMED UINT32_C(3)
#define CMSPROOF_FAILS UINT32_C(4)
#define CMSPROOF_FITS UINT32_C(5)      /* of fit */
#define CMSPROOF_ANSWERS UINT32_C(6)   /* of match */
#define CMSPROOF_SAME UINT32_C(7)      /* of compare, as the next two */
#define CMSPROOF_DIFFERENT UINT32_C(8)
#define CMSPROOF_COLLISION UINT32_C(9)
#define CMSPROOF_WRITTEN UINT32_C(10) /* a list was read, or a text was made */

/* A handle of a trust list, and of an answers list, that was read: memory of the library behind a pointer of its own. One of zeros
 * holds none. The caller changes no field and uses no copy of the struct; only the calls that read, share and free a list
 * change what it holds. cmsproof_check, cmsproof_check_token and cmsproof_stamp_check keep up to eight digests of certificates of
 * the trust list's entries in its handle for the next of them: they are freed with it, no other handle uses them, and they change no
 * answer. */
typedef struct cmsproof_trust {
    void *inside;
    bool held;
} cmsproof_trust;

typedef struct cmsproof_answers {
    void *inside;
    bool held;
} cmsproof_answers;

#define CMSPROOF_EMPTY {NULL, false} /* as in: cmsproof_trust trust = CMSPROOF_EMPTY; also of a tree */

/* The library's version: its first number in the upper half, its second in the lower one. */
uint32_t cmsproof_version(void);

/* Reads a trust list (cmsproof-lists(5)), once for any number of calls. What `trust` held before is freed first, also if the
 * new list is then refused: a call after that gets CMSPROOF_NO_LIST, and no verdict under the old list.
 * Statuses: DONE; MALFORMED, with L1, L2, L3 or L5 and the line in `answer`; NO_MEMORY. */
cmsproof_status cmsproof_trust_read(cmsproof_trust *trust, const uint8_t *list, size_t list_length, cmsproof_answer *answer);

/* How many entries it has. Statuses: DONE; NO_LIST, and `*count` is 0. */
cmsproof_status cmsproof_trust_count(cmsproof_trust *trust, size_t *count);

/* Has `other`, which is another struct, hold the list that `trust` holds, for another thread. The list is in memory once, and never
 * changes: it is freed with the last handle that holds it, and what is then read into `trust` is not in `other`. What `other` held
 * before is freed first. Statuses: DONE; NO_LIST or NO_MEMORY, and `other` holds none. */
cmsproof_status cmsproof_trust_share(cmsproof_trust *trust, cmsproof_trust *other);

/* Frees it, and `trust` holds none. Freed again, or never read, it stays as it is: that is harmless. */
void cmsproof_trust_free(cmsproof_trust *trust);

/* The same for an answers list. Statuses: DONE; MALFORMED, with B1 or B2 and the line in `answer`; NO_MEMORY. */
cmsproof_status cmsproof_answers_read(cmsproof_answers *answers, const uint8_t *list, size_t list_length, cmsproof_answer *answer);

void cmsproof_answers_free(cmsproof_answers *answers);

/* The questions of a file, as `cmsproof questions` prints them.
 * Statuses: DONE, and `text` has the questions; REFUSED, with Q2 in `answer`, or MALFORMED, with Q1 and the fault; NO_ROOM;
 * NO_MEMORY; NO_LIST. If it is refused, no text is made. */
cmsproof_status cmsproof_questions(cmsproof_trust *trust, const uint8_t *file, size_t file_length, char *text, size_t room,
                                   size_t *length, cmsproof_answer *answer);

/* Whether each signature of a file existed by a moment, as `cmsproof check` says it. The file, and a content beside it, are
 * in memory, or mapped there by the caller. The content counts only if `content_given`, also one of no octets; if it is not
 * given, `content` is not read.
 * Statuses: DONE, only if it is accepted; REFUSED, MALFORMED (C1), FAILED (X5); NO_ROOM; NO_MEMORY (of the line); NO_LIST.
 * `answer` says CMSPROOF_ACCEPTED only if the file is accepted, and has the whole verdict also with NO_ROOM and NO_MEMORY.
 * With `room` 0 no line is made, and there is no NO_ROOM and no NO_MEMORY. */
cmsproof_status cmsproof_check(cmsproof_trust *trust, cmsproof_answers *answers, const uint8_t *file, size_t file_length,
                               const uint8_t *content, size_t content_length, bool content_given, bool sha1, char *text,
                               size_t room, size_t *length, cmsproof_answer *answer);

/* Whether one time-stamp token is valid for octets that were stamped, and its time: rules K1 to K14. No line is made.
 * Statuses: DONE, only if it is accepted; REFUSED; NO_LIST. */
cmsproof_status cmsproof_check_token(cmsproof_trust *trust, cmsproof_answers *answers, const uint8_t *token, size_t token_length,
                                     const uint8_t *stamped, size_t stamped_length, bool sha1, cmsproof_answer *answer);

/* Whether a stamp is valid for the octets of a file that it stands beside, and its time, as `cmsproof stamp check` says it. The
 * stamp is a token, or a response with one; nothing else of a response counts. Both are in memory, or mapped there by the caller.
 * Statuses: DONE, only if it is accepted; REFUSED, with K1 to K14, or P1 or P2 of a response without a token; MALFORMED, with the
 * fault of a stamp that is neither; NO_ROOM; NO_MEMORY (of the line); NO_LIST. `answer` has the whole verdict also with NO_ROOM and
 * NO_MEMORY. */
cmsproof_status cmsproof_stamp_check(cmsproof_trust *trust, cmsproof_answers *answers, const uint8_t *stamp, size_t stamp_length,
                                     const uint8_t *data, size_t data_length, bool sha1, char *text, size_t room, size_t *length,
                                     cmsproof_answer *answer);

/* The questions of a stamp, as `cmsproof stamp questions` prints them.
 * Statuses: DONE, and `text` has the questions; REFUSED, with P1, P2 or Q2 in `answer`, or MALFORMED, with the fault; NO_ROOM;
 * NO_MEMORY; NO_LIST. If it is refused, no text is made. */
cmsproof_status cmsproof_stamp_questions(cmsproof_trust *trust, const uint8_t *stamp, size_t stamp_length, char *text, size_t room,
                                         size_t *length, cmsproof_answer *answer);

/* Whether an evidence record (RFC 4998) shows that data objects existed, and by which moment, as `cmsproof evidence check` says it.
 * The data objects are a group, and the record must cover each: `data` has them one after the other, and `lengths` how many octets
 * each of them has, `count` numbers whose sum is `data_length`. `ends` has words with one space between them, each the name of a
 * digest algorithm, `=`, and the last moment at which it holds, as "sha1=20160101000000Z": SHA-1 holds only until such an end. `at`
 * is the moment at which the last time-stamp must hold, as "20261231000000Z", in place of its own. Either may have the length 0.
 * With `whole` the first list of hash values may have none but those of the data objects: cmsproof(1) says what this doesn't show.
 * Statuses: DONE, only if it is accepted; REFUSED, with V2, V3 (no data object) or W1 to W8, whose chain is in `signer` and whose
 * archive time-stamp in `token`, and of W4 with the letter K, by which alone it is known, and the numbers of the token's rule;
 * MALFORMED, with V1 and the fault; USAGE, with no verdict, and the line names the first that is not as it must be, of `end`, `at`
 * and `lengths`; NO_ROOM; NO_MEMORY; NO_LIST. `answer` has the whole verdict also with NO_ROOM; with NO_MEMORY it has it, or says
 * CMSPROOF_NONE, also if `room` is 0. */
cmsproof_status cmsproof_evidence_check(cmsproof_trust *trust, cmsproof_answers *answers, const uint8_t *record,
                                        size_t record_length, const uint8_t *data, size_t data_length, const uint64_t *lengths,
                                        size_t count, const char *ends, size_t ends_length, const char *at, size_t at_length,
                                        bool whole, char *text, size_t room, size_t *length, cmsproof_answer *answer);

/* Whether each signature of a file existed by a moment, under an evidence record that shows the file, and the content if it is given,
 * as `cmsproof check --evidence` says it: with no clock, the file's own time-stamps count though an authority or an algorithm ended since.
 * File and content are handed in as for `cmsproof_check`, `ends` and `at` as for `cmsproof_evidence_check`. The answers list has the
 * answers to the questions of both, `cmsproof_questions` and `cmsproof_evidence_questions`.
 * Statuses: DONE, only if it is accepted; REFUSED and MALFORMED, of the record as `cmsproof_evidence_check` says it, and then `line` of
 * `answer` is 2, or of the file as `cmsproof_check` says it, and then `line` is 0; FAILED (X5); USAGE, with no verdict, and the line
 * names the first that is not as it must be, of `end` and `at`; NO_ROOM; NO_MEMORY; NO_LIST. `answer` has the whole verdict also with
 * NO_ROOM; with NO_MEMORY it has it, or says CMSPROOF_NONE, also if `room` is 0. */
cmsproof_status cmsproof_check_under(cmsproof_trust *trust, cmsproof_answers *answers, const uint8_t *file, size_t file_length,
                                     const uint8_t *content, size_t content_length, bool content_given, const uint8_t *record,
                                     size_t record_length, const char *ends, size_t ends_length, const char *at, size_t at_length,
                                     char *text, size_t room, size_t *length, cmsproof_answer *answer);

/* The questions of an evidence record, as `cmsproof evidence questions` prints them.
 * Statuses: DONE, and `text` has the questions; REFUSED, with V2 in `answer`, or MALFORMED, with V1 and the fault; NO_ROOM;
 * NO_MEMORY; NO_LIST. If it is refused, no text is made. */
cmsproof_status cmsproof_evidence_questions(cmsproof_trust *trust, const uint8_t *record, size_t record_length, char *text,
                                            size_t room, size_t *length, cmsproof_answer *answer);

/* A handle of a hash tree (RFC 4998 4.2), by which evidence records are made and renewed; as that of a list. */
typedef struct cmsproof_tree {
    void *inside;
    bool held;
} cmsproof_tree;

/* Evidence records are made of digests, and renewed, as by `cmsproof evidence request`, `make`, `renew` and `rehash`, a record a call:
 * 1. `cmsproof_tree_make` makes the tree. Its leaves are the digests of the data objects; for `renew` the leaf of each record by
 *    `cmsproof_evidence_renew_leaf`, and the algorithm is that of `cmsproof_evidence_renew_algorithm`; for `rehash` the leaf of each
 *    record by `cmsproof_evidence_rehash_leaf`.
 * 2. An authority stamps its root, `cmsproof_tree_root`: `cmsproof_request` makes the request, and `cmsproof_token` has the token.
 * 3. `cmsproof_evidence_make`, `cmsproof_evidence_renew` or `cmsproof_evidence_rehash` gives each record.
 * Records that are renewed, and stored one by one in the place of the old ones, are of two kinds where that was cut off. Where `token`
 * is handed in, a record that it has renewed already has the leaf that it had before, and stays as it is: so the tree is the same. In
 * the calls for leaves `token` may have the length 0, where there is none yet. Nothing is verified: not who signed a token, nor what a
 * record shows. */

/* Makes the tree over digests by the algorithm of this name ("sha256", as the program's --alg), `digests`, one after the other. What
 * `tree` held before is freed first. Statuses: DONE; USAGE (no algorithm has the name, or these are not one digest or more by it), or
 * NO_MEMORY, and `tree` holds none. */
cmsproof_status cmsproof_tree_make(cmsproof_tree *tree, const char *algorithm, size_t algorithm_length, const uint8_t *digests,
                                   size_t digests_length, cmsproof_answer *answer);

/* Its root, a digest by its algorithm. Statuses: DONE, and `root` has the octets; NO_ROOM; NO_LIST. */
cmsproof_status cmsproof_tree_root(cmsproof_tree *tree, uint8_t *root, size_t room, size_t *length, cmsproof_answer *answer);

/* Frees it, and `tree` holds none. Freed again, or never made, it stays as it is. */
void cmsproof_tree_free(cmsproof_tree *tree);

/* The evidence record of a digest, a leaf of the tree, with a token over the root, as `cmsproof evidence make` writes it.
 * Statuses: DONE, and `record` has the octets; USAGE, and it has the line `usage digest`, of one that is no leaf; REFUSED, with U7, U8 or
 * U10, and it has the line; NO_ROOM; NO_MEMORY; NO_LIST. */
cmsproof_status cmsproof_evidence_make(cmsproof_tree *tree, const uint8_t *digest, size_t digest_length, const uint8_t *token,
                                       size_t token_length, uint8_t *record, size_t room, size_t *length, cmsproof_answer *answer);

/* The name of the algorithm of the tree by which a record is renewed: that of its last chain. Records by another one need another tree and
 * token. Statuses: DONE, and `name` has it; MALFORMED, with the fault, or REFUSED, with U3, and it has the line; NO_ROOM; NO_MEMORY. */
cmsproof_status cmsproof_evidence_renew_algorithm(const uint8_t *record, size_t record_length, char *name, size_t room,
                                                  size_t *length, cmsproof_answer *answer);

/* The leaf of that tree, by the algorithm of this name: the digest of the record's last time-stamp. Statuses: DONE, and `leaf` has the
 * octets; MALFORMED, with the fault, or REFUSED, with U3, or U4 (its leaf is by another algorithm), or USAGE (`usage alg`: no algorithm
 * has the name), and it has the line; NO_ROOM; NO_MEMORY. */
cmsproof_status cmsproof_evidence_renew_leaf(const uint8_t *record, size_t record_length, const char *algorithm,
                                             size_t algorithm_length, const uint8_t *token, size_t token_length, uint8_t *leaf,
                                             size_t room, size_t *length, cmsproof_answer *answer);

/* A record, renewed by a token over the root of the tree, as `cmsproof evidence renew` writes it.
 * Statuses: DONE, and `renewed` has the octets; MALFORMED, with the fault, or REFUSED, with U3, U4 (its leaf is by another algorithm than
 * the tree) or U7 to U10, and it has the line; USAGE, and it has the line `usage record`, where its leaf is none of the tree; NO_ROOM;
 * NO_MEMORY; NO_LIST. */
cmsproof_status cmsproof_evidence_renew(cmsproof_tree *tree, const uint8_t *record, size_t record_length, const uint8_t *token,
                                        size_t token_length, uint8_t *renewed, size_t room, size_t *length, cmsproof_answer *answer);

/* The leaf of the tree by which a record gets a new chain, for the data object of this digest by the algorithm of this name, that of the
 * tree; or for several data objects, whose digests stand one after the other. The new chain covers these and no others. So the record is
 * refused with U11 if its first list has another number of values, unless it is of these data objects `alone`: what else stands in its first
 * list is then of other records in the tree. Statuses: as for `cmsproof_evidence_renew_leaf`, with U11 for U4; and USAGE also with the line
 * `usage digest`, where `digest` is not one digest or more by the algorithm. */
cmsproof_status cmsproof_evidence_rehash_leaf(const uint8_t *record, size_t record_length, const char *algorithm,
                                              size_t algorithm_length, const uint8_t *digest, size_t digest_length, bool alone,
                                              const uint8_t *token, size_t token_length, uint8_t *leaf, size_t room, size_t *length,
                                              cmsproof_answer *answer);

/* A record with a new chain by a token over the root of the tree, for the data object or the data objects of these digests by the algorithm
 * of the tree, as `cmsproof evidence rehash` writes it. Statuses: as for `cmsproof_evidence_renew`, with U11 for U4; and USAGE also with the
 * line `usage digest`, where `digest` is not one digest or more by that algorithm. */
cmsproof_status cmsproof_evidence_rehash(cmsproof_tree *tree, const uint8_t *record, size_t record_length, const uint8_t *digest,
                                         size_t digest_length, bool alone, const uint8_t *token, size_t token_length,
                                         uint8_t *rehashed, size_t room, size_t *length, cmsproof_answer *answer);

/* Whether the content and the signed attributes of each signer of a file belong together, as `cmsproof fit` says it. File and
 * content are handed in as for `cmsproof_check`. Statuses: DONE, with CMSPROOF_FITS and how many signers there are in `signer`;
 * REFUSED, MALFORMED (C1), FAILED (X5); NO_ROOM; NO_MEMORY (of the line). `answer` has the whole verdict also with the last two. */
cmsproof_status cmsproof_fit(const uint8_t *file, size_t file_length, const uint8_t *content, size_t content_length,
                             bool content_given, bool sha1, char *text, size_t room, size_t *length, cmsproof_answer *answer);

/* Whether a signer of one file and a signer of another sign the same, as `cmsproof compare` says it; signers are counted from 1.
 * Statuses: DONE, with CMSPROOF_SAME; REFUSED, with CMSPROOF_DIFFERENT, CMSPROOF_COLLISION, or E1 to E4; MALFORMED, with E1 and the
 * fault; NO_ROOM; NO_MEMORY (of the line). `line` is 1 or 2 for the file that fails a rule. `answer` has the whole verdict also
 * with the last two statuses. */
cmsproof_status cmsproof_compare(const uint8_t *first, size_t first_length, uint64_t first_signer, const uint8_t *second,
                                 size_t second_length, uint64_t second_signer, char *text, size_t room, size_t *length,
                                 cmsproof_answer *answer);

/* A time-stamp request (RFC 3161 2.4.1) of a digest by the algorithm of this name ("sha256", as the program's --alg), and of octets
 * that are hashed by it. `policy` is an object identifier in decimal with points, `nonce` the contents of an INTEGER, big-endian
 * without a needless first octet; with the length 0 there is none. `certificate` asks for the authority's certificate.
 * Statuses: DONE, and `request` has the octets; USAGE, and it has the line that names the first value that is not as it must be,
 * of `alg`, `digest`, `policy` and `nonce`; NO_ROOM; NO_MEMORY. */
cmsproof_status cmsproof_request(const char *algorithm, size_t algorithm_length, const uint8_t *digest, size_t digest_length,
                                 const char *policy, size_t policy_length, const uint8_t *nonce, size_t nonce_length,
                                 bool certificate, uint8_t *request, size_t room, size_t *length, cmsproof_answer *answer);

cmsproof_status cmsproof_request_of(const char *algorithm, size_t algorithm_length, const uint8_t *octets, size_t octets_length,
                                    const char *policy, size_t policy_length, const uint8_t *nonce, size_t nonce_length,
                                    bool certificate, uint8_t *request, size_t room, size_t *length, cmsproof_answer *answer);

/* A time-stamp request of the signature of a signer of a file, numbered from 1, as `cmsproof request --of FILE --signer N` makes it: of
 * the digest of the signature's octets. The values are judged as above, `alg`, `policy`, `nonce`, and then the file.
 * Statuses: DONE, and `request` has the octets; USAGE, and it has the line that names the first value that is not as it must be;
 * MALFORMED, with the fault of the file, or REFUSED, with A1 (a ContentInfo of another type) or A2 (no such signer), and it has the
 * line; NO_ROOM; NO_MEMORY. */
cmsproof_status cmsproof_request_of_signature(const char *algorithm, size_t algorithm_length, const uint8_t *file,
                                              size_t file_length, uint64_t signer, const char *policy, size_t policy_length,
                                              const uint8_t *nonce, size_t nonce_length, bool certificate, uint8_t *request,
                                              size_t room, size_t *length, cmsproof_answer *answer);

/* Whether a response answers a request, as `cmsproof match` says it. No signature is verified.
 * Statuses: DONE, with CMSPROOF_ANSWERS; REFUSED, with P1 to P7; MALFORMED, with the fault and `line` 1 (the request) or 2 (the
 * response); NO_ROOM; NO_MEMORY (of the line). `answer` has the whole verdict also with the last two. */
cmsproof_status cmsproof_match(const uint8_t *request, size_t request_length, const uint8_t *response, size_t response_length,
                               char *text, size_t room, size_t *length, cmsproof_answer *answer);

/* The token of a response that answers a request. Statuses: DONE, and `token` has its octets; REFUSED or MALFORMED as for
 * `cmsproof_match`, and it has the line; NO_ROOM; NO_MEMORY. */
cmsproof_status cmsproof_token(const uint8_t *request, size_t request_length, const uint8_t *response, size_t response_length,
                               uint8_t *token, size_t room, size_t *length, cmsproof_answer *answer);

/* A file with a time-stamp token attached to its signer of this number, from 1, as `cmsproof attach` writes it. No signature is
 * verified. Statuses: DONE, and `attached` has the octets of the new file; REFUSED, with A1 to A5, or MALFORMED, with the fault
 * of the file, and it has the line; NO_ROOM; NO_MEMORY. */
cmsproof_status cmsproof_attach(const uint8_t *file, size_t file_length, uint64_t signer, const uint8_t *token,
                                size_t token_length, uint8_t *attached, size_t room, size_t *length, cmsproof_answer *answer);

/* What `cmsproof show` prints of an input of one of these types. Statuses: DONE, and `text` has the lines; MALFORMED, with the
 * fault, or REFUSED (a ContentInfo of another type), and it has the line; USAGE (no such type); NO_ROOM; NO_MEMORY. */
#define CMSPROOF_REQUEST UINT32_C(1)
#define CMSPROOF_RESPONSE UINT32_C(2)
#define CMSPROOF_TST UINT32_C(3)
#define CMSPROOF_SIGNED UINT32_C(4)
#define CMSPROOF_CERTIFICATE UINT32_C(5)
#define CMSPROOF_EVIDENCE UINT32_C(6) /* an evidence record (RFC 4998) */
cmsproof_status cmsproof_show(uint32_t type, const uint8_t *input, size_t input_length, char *text, size_t room, size_t *length,
                              cmsproof_answer *answer);

#ifdef __cplusplus
}
#endif

#endif
