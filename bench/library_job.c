/* library_job TRUST ANSWERS FILE TOKEN UNSTAMPED: what a program asks of the library with octets in memory, once each, for
   `make instructions`: lists, `check`, `questions`, `fit`, `show`, `compare`, a request of a signature, a token attached. It prints the
   status of each call and what it says. It uses no more of C's library than a process has that is measured. */
#include <cmsproof.h>

#define ROOM (1 << 20)

long read(int file, void *into, size_t room);
long write(int file, const void *from, size_t length);
int open(const char *path, int how, ...);

static uint8_t trusted[ROOM], vouched[ROOM], file[ROOM], token[ROOM], unstamped[ROOM];
static char text[ROOM];
static size_t length;

static size_t of_file(const char *path, uint8_t *into) {
    int from = open(path, 0);
    long held = 0, got = from < 0 ? -1 : 0;
    while (from >= 0 && (got = read(from, into + held, (size_t)(ROOM - held))) > 0) held += got;
    return got < 0 ? 0 : (size_t)held;
}

static void tell(const char *name, cmsproof_status status) {
    char line[] = " 0\n";
    size_t size = 0;
    while (name[size] != '\0') size++;
    line[1] = (char)('0' + status);
    if (write(1, name, size) < 0 || write(1, line, 3) < 0 || write(1, text, length <= ROOM ? length : 0) < 0) length = 0;
    length = 0;
}

int main(int count, char **words) {
    if (count != 6) return 3;
    cmsproof_trust trust = CMSPROOF_EMPTY;
    cmsproof_answers answers = CMSPROOF_EMPTY;
    cmsproof_answer said;
    size_t list = of_file(words[1], trusted), asked = of_file(words[2], vouched), size = of_file(words[3], file);
    size_t stamp = of_file(words[4], token), bare = of_file(words[5], unstamped);
    uint8_t *octets = (uint8_t *)text;
    tell("trust", cmsproof_trust_read(&trust, trusted, list, &said));
    tell("answers", cmsproof_answers_read(&answers, vouched, asked, &said));
    tell("check", cmsproof_check(&trust, &answers, file, size, file, 0, false, false, text, ROOM, &length, &said));
    tell("questions", cmsproof_questions(&trust, file, size, text, ROOM, &length, &said));
    tell("fit", cmsproof_fit(file, size, file, 0, false, false, text, ROOM, &length, &said));
    tell("show", cmsproof_show(CMSPROOF_SIGNED, file, size, text, ROOM, &length, &said));
    tell("compare", cmsproof_compare(file, size, 1, file, size, 1, text, ROOM, &length, &said));
    tell("request", cmsproof_request_of_signature("sha256", 6, file, size, 1, "", 0, file, 0, true, octets, ROOM, &length, &said));
    tell("attach", cmsproof_attach(unstamped, bare, 1, token, stamp, octets, ROOM, &length, &said));
    cmsproof_answers_free(&answers);
    cmsproof_trust_free(&trust);
    return 0;
}
