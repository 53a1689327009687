/* cms_verify FILE COUNT [CONTENT]: nanoseconds of the processor that OpenSSL's CMS_verify takes for a file in memory, COUNT times
   in one process: what a program would call instead of the library. It reads the file anew each time, as the library does, and
   verifies the signatures over the content under the certificates in the file. It builds no path to an issuer and reads no
   time-stamp. Build it with `cc -O2 cms_verify.c -lcrypto`. */
#define _POSIX_C_SOURCE 199309L
#include <openssl/cms.h>
#include <openssl/err.h>
#include <stdio.h>
#include <stdlib.h>
#include <time.h>

static unsigned char file[1 << 24], content[1 << 24];

static int of_file(const char *path, unsigned char *into, size_t room) {
    FILE *from = fopen(path, "rb");
    size_t length = from != NULL ? fread(into, 1, room, from) : room;
    if (length == room || ferror(from) || fclose(from) != 0) {
        fprintf(stderr, "cms_verify: %s cannot be read\n", path);
        exit(3);
    }
    return (int)length;
}

static int verifies(int length, int beside) {
    BIO *in = BIO_new_mem_buf(file, length), *out = BIO_new(BIO_s_null());
    BIO *data = beside >= 0 ? BIO_new_mem_buf(content, beside) : NULL;
    CMS_ContentInfo *cms = d2i_CMS_bio(in, NULL);
    int good = cms != NULL && CMS_verify(cms, NULL, NULL, data, out, CMS_BINARY | CMS_NO_SIGNER_CERT_VERIFY) == 1;
    CMS_ContentInfo_free(cms);
    BIO_free(data);
    BIO_free(out);
    BIO_free(in);
    return good;
}

int main(int count, char **words) {
    if (count < 3) return 3;
    int length = of_file(words[1], file, sizeof file), beside = count > 3 ? of_file(words[3], content, sizeof content) : -1;
    struct timespec from, to;
    if (!verifies(length, beside)) { /* and what is made at the first call is made */
        ERR_print_errors_fp(stderr);
        return 1;
    }
    long times = atol(words[2]);
    clock_gettime(CLOCK_PROCESS_CPUTIME_ID, &from);
    for (long i = 0; i < times; i++)
        if (!verifies(length, beside)) return 1;
    clock_gettime(CLOCK_PROCESS_CPUTIME_ID, &to);
    printf("%.0f\n", ((double)(to.tv_sec - from.tv_sec) * 1e9 + (double)(to.tv_nsec - from.tv_nsec)) / (double)times);
    return 0;
}
