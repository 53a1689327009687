/* The calls that need no list and tell by a text: each on one input of strangers, beside inputs that are right. */
#ifndef TEXTS_H
#define TEXTS_H

#include "judging.h"

/* What is right beside what is asked about. */
struct beside { struct octets file, token, request, response; };

#define TEXTS 14

/* Makes the call of this number about some octets. */
static inline cmsproof_status told(unsigned call, struct octets octets, const struct beside *right, char *text, size_t room,
                                   size_t *length, cmsproof_answer *said) {
    static const uint8_t none[1] = {0}, digest[32] = {1, 2, 3};
    const struct octets file = right->file, token = right->token;
    uint8_t *into = (uint8_t *)text;
    switch (call % TEXTS) {
    case 0: return cmsproof_fit(octets.at, octets.length, blob.at, blob.length, true, false, text, room, length, said);
    case 1: return cmsproof_fit(octets.at, octets.length, none, 0, false, true, text, room, length, said);
    case 2: return cmsproof_compare(octets.at, octets.length, 1, file.at, file.length, 1, text, room, length, said);
    case 3: return cmsproof_compare(file.at, file.length, 1, octets.at, octets.length, 1, text, room, length, said);
    case 4:
        return cmsproof_request("sha256", 6, digest, sizeof digest, (const char *)none, 0, octets.at, octets.length, true, into, room,
                                length, said);
    case 5:
        return cmsproof_request_of("sha512", 6, octets.at, octets.length, (const char *)none, 0, none, 0, false, into, room, length,
                                   said);
    case 6:
        return cmsproof_request("sha256", 6, digest, sizeof digest, (const char *)octets.at, octets.length, none, 0, false, into, room,
                                length, said);
    case 7:
        return cmsproof_match(octets.at, octets.length, right->response.at, right->response.length, text, room, length, said);
    case 8: return cmsproof_match(right->request.at, right->request.length, octets.at, octets.length, text, room, length, said);
    case 9:
        return cmsproof_token(right->request.at, right->request.length, octets.at, octets.length, into, room, length, said);
    case 10: return cmsproof_attach(octets.at, octets.length, 1, token.at, token.length, into, room, length, said);
    case 11: return cmsproof_attach(file.at, file.length, 1, octets.at, octets.length, into, room, length, said);
    case 12:
        return cmsproof_request_of_signature("sha256", 6, octets.at, octets.length, 1 + call / TEXTS % 2, (const char *)none, 0, none,
                                             0, true, into, room, length, said);
    default: return cmsproof_show(1 + call / TEXTS % 6, octets.at, octets.length, text, room, length, said);
    }
}

/* Whether a call judges: then its text is a line, which it does not make in no room. */
static inline int judges(unsigned call) {
    call %= TEXTS;
    return call <= 3 || call == 7 || call == 8;
}

static inline void goes_with(cmsproof_status status, const cmsproof_answer *said) {
    switch (status) {
    case CMSPROOF_DONE:
        HOLDS(said->verdict == CMSPROOF_FITS || said->verdict == CMSPROOF_ANSWERS || said->verdict == CMSPROOF_SAME
              || said->verdict == CMSPROOF_WRITTEN);
        HOLDS(said->letter == 0 && said->kind == 0);
        break;
    case CMSPROOF_REFUSED:
        HOLDS(said->verdict == CMSPROOF_REFUSES || said->verdict == CMSPROOF_DIFFERENT || said->verdict == CMSPROOF_COLLISION);
        break;
    case CMSPROOF_MALFORMED: HOLDS(said->verdict == CMSPROOF_IS_MALFORMED && said->kind >= 1 && said->kind <= 15); break;
    case CMSPROOF_FAILED: HOLDS(said->verdict == CMSPROOF_FAILS); break;
    default: HOLDS(status == CMSPROOF_USAGE);
    }
}

/* Makes a call in the room behind whose end nothing may be written: in all of it, in just enough and in too little. */
static inline cmsproof_status in_rooms(unsigned call, struct octets octets, const struct beside *right, uint8_t *at, size_t room,
                                       cmsproof_answer *said) {
    cmsproof_answer again = stale();
    size_t length = 9999, size = 9999;
    *said = stale();
    cmsproof_status status = told(call, octets, right, (char *)at, room, &length, said), other;
    goes_with(status, said);
    HOLDS(length >= 1 && length <= room);
    uint8_t *copy = (uint8_t *)malloc(length), *end = at + room - length;
    HOLDS(copy != NULL);
    memcpy(copy, at, length);
    HOLDS(told(call, octets, right, (char *)end, length, &size, &again) == status && size == length);
    HOLDS(memcmp(end, copy, length) == 0 && memcmp(said, &again, sizeof again) == 0);
    end[1 % length] = end[0] = '?';
    again = stale();
    other = told(call, octets, right, (char *)end, length - 1, &size, &again);
    HOLDS(length == 1 || (end[0] == '?' && memcmp(said, &again, sizeof again) == 0));
    if (length > 1) HOLDS(size == length && (other == CMSPROOF_NO_ROOM || (status != CMSPROOF_DONE && !judges(call) && other == status)));
    if (judges(call)) HOLDS(told(call, octets, right, (char *)end, 0, &size, &again) == status && size == 0);
    free(copy);
    return status;
}

#endif
