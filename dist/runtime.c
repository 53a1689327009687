/* What the compiled program calls beside the C library: six functions and what keeps the arguments. Nothing here is proved; what
   the proved program asks and is owed is said at each. Built with cmsproof-*-linux.s by `make`. */
#include <errno.h>
#include <stddef.h>
#include <stdint.h>
#include <stdlib.h>

/* An answer of the heap: whether there is memory, and where. Without memory the address is one that nobody reads or writes. */
struct tried { uint64_t ok; void *at; };
static _Alignas(16) char nowhere[16];

static struct tried tried(void *at) { return (struct tried){at != NULL, at != NULL ? at : nowhere}; }

/* Owes, or says that there is none: a block of SIZE octets that nothing else uses, aligned to ALIGN, which divides 16 as malloc
   aligns. Where SIZE is 0 it asks for ALIGN octets, so that the address is not null. SIZE is below 2^63. */
struct tried rattle_alloc(size_t size, size_t align);
struct tried rattle_alloc(size_t size, size_t align) { return tried(malloc(size != 0 ? size : align)); }

/* Owes the block OLD with SIZE octets, perhaps elsewhere, its first KEPT octets as they were; or says no, and leaves OLD alone. */
struct tried rattle_realloc(void *old, size_t kept, size_t size, size_t align);
struct tried rattle_realloc(void *old, size_t kept, size_t size, size_t align) {
    (void)kept; /* realloc keeps the smaller of both lengths, and KEPT is at most that */
    return tried(realloc(old, size != 0 ? size : align));
}

/* Takes back a block that one of the two gave; the program hands in each once, and uses it no more. */
void rattle_dealloc(void *block);
void rattle_dealloc(void *block) { free(block); }

/* Owes the error number of the last call of the system that failed, in this thread, and sets it. */
int rattle_errno(void);
int rattle_errno(void) { return errno; }
void rattle_set_errno(int error);
void rattle_set_errno(int error) { errno = error; }

/* The arguments, as the GNU C library hands them to constructors before `main`, which takes none. Another one, as musl, hands them
   nothing, and the arguments would be whatever stands in two registers. */
#ifndef __GLIBC__
#error "no GNU C library, which alone hands the arguments to constructors"
#endif
static size_t count;
static char **words;
__attribute__((constructor)) static void keep(int argc, char **argv) {
    count = argc > 0 ? (size_t)argc : 0;
    words = argv;
}

/* Owes argument I (0 is the program's name) in the first octets of BUFFER and its length, without the 0 at its end; -1 where there
   is none; -2 where it is longer than ROOM, and then BUFFER is full. It writes at most ROOM octets. */
int64_t rattle_arg(size_t i, unsigned char *buffer, size_t room);
int64_t rattle_arg(size_t i, unsigned char *buffer, size_t room) {
    if (i >= count || words[i] == NULL) return -1;
    size_t length = 0;
    for (; words[i][length] != '\0'; length++) {
        if (length == room) return -2;
        buffer[length] = (unsigned char)words[i][length];
    }
    return (int64_t)length;
}
