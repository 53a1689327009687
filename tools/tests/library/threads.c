/* threads TRUST ANSWERS CONTENT SECONDS FILE ..: 8 threads, each with handles and a small stack of its own, ask the library about the files for so
   many seconds (0: once each), each in another order. Half of them read a trust list of their own, now and then anew; the others share
   the list of the first thread, and now and then each makes another handle of it. Each answer must be what one thread alone was told
   before. It prints how many checks were made. */
#include "judging.h"
#include <pthread.h>
#include <time.h>

#define THREADS 8
#define FILES 32
/* what the header promises to do with, and what this program needs beside it */
#define STACK ((128 + 32) * 1024)

static struct octets files[FILES];
static cmsproof_answer alone[FILES];
static int count_of_files, given[FILES];
static time_t last;

struct worker { pthread_t thread; int number; long checks; cmsproof_trust shared; };

/* Reads the lists, or takes the trust list that another handle holds. */
static void read_lists(cmsproof_trust *trust, cmsproof_answers *answers, cmsproof_trust *shared) {
    cmsproof_answer said;
    size_t count;
    if (shared != NULL) HOLDS(cmsproof_trust_share(shared, trust) == CMSPROOF_DONE);
    else HOLDS(cmsproof_trust_read(trust, listed.at, listed.length, &said) == CMSPROOF_DONE);
    HOLDS(cmsproof_answers_read(answers, asked.at, asked.length, &said) == CMSPROOF_DONE);
    HOLDS(cmsproof_trust_count(trust, &count) == CMSPROOF_DONE && count > 0);
}

static void ask(cmsproof_trust *trust, cmsproof_answers *answers, int i) {
    char text[1 << 14];
    size_t length;
    cmsproof_answer said = stale();
    cmsproof_status status = cmsproof_questions(trust, files[i].at, files[i].length, text, sizeof text, &length, &said);
    HOLDS(status == CMSPROOF_DONE || status == CMSPROOF_MALFORMED);
    said = checked(trust, answers, files[i], blob, given[i], false);
    HOLDS(memcmp(&said, &alone[i], sizeof said) == 0);
}

static void *work(void *of) {
    struct worker *worker = (struct worker *)of;
    cmsproof_trust trust = CMSPROOF_EMPTY;
    cmsproof_answers answers = CMSPROOF_EMPTY;
    do {
        read_lists(&trust, &answers, worker->number % 2 == 0 ? NULL : &worker->shared);
        for (int i = 0; i < count_of_files; i++, worker->checks++) ask(&trust, &answers, (i + worker->number) % count_of_files);
    } while (time(NULL) < last);
    cmsproof_trust_free(&trust);
    cmsproof_trust_free(&worker->shared);
    cmsproof_answers_free(&answers);
    return NULL;
}

int main(int count, char **words) {
    HOLDS(count > 5 && count - 5 <= FILES);
    struct worker workers[THREADS];
    cmsproof_trust trust = CMSPROOF_EMPTY;
    cmsproof_answers answers = CMSPROOF_EMPTY;
    long checks = 0, accepted = 0;
    know(words[1], words[2], words[3]);
    last = time(NULL) + atoi(words[4]);
    count_of_files = count - 5;
    read_lists(&trust, &answers, NULL);
    for (int i = 0; i < count_of_files; i++) {
        files[i] = of_file(words[5 + i]);
        given[i] = strstr(words[5 + i], "detached") != NULL;
        alone[i] = checked(&trust, &answers, files[i], blob, given[i], false);
        accepted += alone[i].verdict == CMSPROOF_ACCEPTED;
    }
    HOLDS(accepted > 0);
    pthread_attr_t how;
    HOLDS(pthread_attr_init(&how) == 0 && pthread_attr_setstacksize(&how, STACK) == 0);
    for (int i = 0; i < THREADS; i++) {
        workers[i].number = i;
        workers[i].checks = 0;
        workers[i].shared = (cmsproof_trust)CMSPROOF_EMPTY;
        HOLDS(cmsproof_trust_share(&trust, &workers[i].shared) == CMSPROOF_DONE);
        HOLDS(pthread_create(&workers[i].thread, &how, work, &workers[i]) == 0);
    }
    for (int i = 0; i < THREADS; i++) {
        HOLDS(pthread_join(workers[i].thread, NULL) == 0);
        checks += workers[i].checks;
    }
    cmsproof_trust_free(&trust);
    cmsproof_answers_free(&answers);
    printf("threads: %ld checks in %d threads\n", checks, THREADS);
    return 0;
}
