/* What a program or library of dist/ calls where `make instructions` measures it, in the place of dist/runtime.c and of C's library,
   which differ from machine to machine: calls of Linux on x86-64, the heap, and the first and last of a process. It is linked
   statically, and its own instructions are not counted.

   MEASURED_PAGES=FILE in the environment has it write into FILE how many pages of memory the program touched for the first time, its
   stack's too; MEASURED_STACK=FILE how many octets its stack is high, which needs a run of its own. */
#include <stddef.h>
#include <stdint.h>

struct tried { uint64_t ok; void *at; };
struct ended { long height, status; };
struct block { size_t class, unused; };
struct seconds { long whole, micro; };
struct usage { struct seconds user, system; long kept[4], small_faults, large_faults, others[8]; };
struct part { uint32_t kind, rights; unsigned long offset, at, physical, in_file, size, alignment; };
struct action { void *handler; unsigned long flags; void *restorer; unsigned long mask; };

enum { PAGE = 4096, PAINTED = 4 << 20, CLASSES = 40 };
enum { READ, WRITE, OPEN, CLOSE, LSEEK = 8, MMAP, SIGACTION = 13, FLOCK = 73, FSYNC, FDATASYNC, FTRUNCATE = 77, RENAME = 82, MKDIR };
enum { LINK = 86, UNLINK, READLINK = 89, FCHMOD = 91, GETRUSAGE = 98, PRCTL = 157, EXIT_GROUP = 231, STATX = 332 };
static const size_t ARENA = (size_t)1 << 32;

extern struct ended measured_main(long octets, long count, char **words);
void measured_begin(long *stack);

static int error;
static long count;
static char **words;
static unsigned char nowhere[16];
static unsigned char *arena, *arena_end;
static struct block *spare[CLASSES];

static long raw(long number, long a, long b, long c, long d, long e, long f) {
    register long r10 __asm__("r10") = d;
    register long r8 __asm__("r8") = e;
    register long r9 __asm__("r9") = f;
    long answer;
    __asm__ volatile("syscall" : "=a"(answer) : "a"(number), "D"(a), "S"(b), "d"(c), "r"(r10), "r"(r8), "r"(r9) : "rcx", "r11", "memory");
    return answer;
}

/* A call as C's library makes it: -1 where it failed, and then the number of the error. */
static long asked(long number, long a, long b, long c, long d, long e) {
    long answer = raw(number, a, b, c, d, e, 0);
    if (answer >= 0) return answer;
    error = (int)-answer;
    return -1;
}

long read(int file, void *into, size_t room) { return asked(READ, file, (long)into, (long)room, 0, 0); }
long write(int file, const void *from, size_t length) { return asked(WRITE, file, (long)from, (long)length, 0, 0); }
int open(const char *path, int how, int mode) { return (int)asked(OPEN, (long)path, how, mode, 0, 0); }
int close(int file) { return (int)asked(CLOSE, file, 0, 0, 0, 0); }
long lseek(int file, long to, int from) { return asked(LSEEK, file, to, from, 0, 0); }
int flock(int file, int how) { return (int)asked(FLOCK, file, how, 0, 0, 0); }
int fsync(int file) { return (int)asked(FSYNC, file, 0, 0, 0, 0); }
int fdatasync(int file) { return (int)asked(FDATASYNC, file, 0, 0, 0, 0); }
int ftruncate(int file, long length) { return (int)asked(FTRUNCATE, file, length, 0, 0, 0); }
int rename(const char *from, const char *to) { return (int)asked(RENAME, (long)from, (long)to, 0, 0, 0); }
int link(const char *from, const char *to) { return (int)asked(LINK, (long)from, (long)to, 0, 0, 0); }
int mkdir(const char *path, unsigned mode) { return (int)asked(MKDIR, (long)path, mode, 0, 0, 0); }
int unlink(const char *path) { return (int)asked(UNLINK, (long)path, 0, 0, 0, 0); }
int fchmod(int file, unsigned mode) { return (int)asked(FCHMOD, file, mode, 0, 0, 0); }
int statx(int folder, const char *path, int how, unsigned what, void *into) {
    return (int)asked(STATX, folder, (long)path, how, what, (long)into);
}

/* The text of an error of the system, which no job prints: none. */
int __xpg_strerror_r(int number, char *into, size_t room) {
    (void)number;
    if (room > 0) *into = '\0';
    return 0;
}

void *__sysv_signal(int number, void *handler) {
    struct action action = {handler, 0, NULL, 0};
    return asked(SIGACTION, number, (long)&action, 0, 8, 0) < 0 ? (void *)-1 : NULL;
}

/* The path by the links of /proc, into a room of 4096 octets. */
char *realpath(const char *path, char *into) {
    char link[32] = "/proc/self/fd/";
    int file = (int)asked(OPEN, (long)path, 010000000 /* O_PATH */, 0, 0, 0);
    if (file < 0) return NULL;
    size_t at = 14;
    for (int unit = 1000; unit > 0; unit /= 10)
        if (file >= unit || unit == 1) link[at++] = (char)('0' + file / unit % 10);
    long length = asked(READLINK, (long)link, (long)into, PAGE - 1, 0, 0);
    close(file);
    if (length < 0) return NULL;
    into[length] = '\0';
    return into;
}

/* The heap: blocks of a power of two, of one arena; what is given back is given again first. */
static size_t class_of(size_t size) {
    size_t class = 5;
    while (((size_t)1 << class) < size + sizeof(struct block)) class++;
    return class;
}

struct tried rattle_alloc(size_t size, size_t align) {
    struct tried refused = {0, nowhere};
    if (align > 16 || size > ARENA / 2) return refused;
    size_t class = class_of(size);
    struct block *found = spare[class];
    if (found != NULL) {
        spare[class] = *(struct block **)(found + 1);
    } else {
        if ((size_t)(arena_end - arena) < (size_t)1 << class) return refused;
        found = (struct block *)arena;
        arena += (size_t)1 << class;
        found->class = class;
    }
    return (struct tried){1, found + 1};
}

void rattle_dealloc(void *block) {
    struct block *it = (struct block *)block - 1;
    *(struct block **)block = spare[it->class];
    spare[it->class] = it;
}

struct tried rattle_realloc(void *old, size_t kept, size_t size, size_t align) {
    if (class_of(size) == ((struct block *)old - 1)->class) return (struct tried){1, old};
    struct tried made = rattle_alloc(size, align);
    if (!made.ok) return made;
    unsigned char *to = made.at;
    const unsigned char *from = old;
    size_t length = kept < size ? kept : size;
    __asm__ volatile("rep movsb" : "+D"(to), "+S"(from), "+c"(length) : : "memory");
    rattle_dealloc(old);
    return made;
}

int rattle_errno(void) { return error; }
void rattle_set_errno(int number) { error = number; }

int64_t rattle_arg(size_t i, unsigned char *buffer, size_t room) {
    if (i >= (size_t)count) return -1;
    size_t length = 0;
    for (; words[i][length] != '\0'; length++) {
        if (length == room) return -2;
        buffer[length] = (unsigned char)words[i][length];
    }
    return (int64_t)length;
}

/* What stands behind NAME and a `=` in the environment, or nothing. */
static const char *value_of(char **environment, const char *name) {
    for (; *environment != NULL; environment++) {
        const char *it = *environment;
        size_t at = 0;
        while (name[at] != '\0' && it[at] == name[at]) at++;
        if (name[at] == '\0' && it[at] == '=') return it + at + 1;
    }
    return NULL;
}

static long faults(void) {
    struct usage usage;
    raw(GETRUSAGE, 0, (long)&usage, 0, 0, 0, 0);
    return usage.small_faults + usage.large_faults;
}

/* Has all pages of the program's file in memory, so that none of these is counted: by the parts that the kernel says behind the
   environment that it loaded. */
static void touch_all(char **environment) {
    while (*environment != NULL) environment++;
    const unsigned long *said = (const unsigned long *)(environment + 1);
    const struct part *part = NULL;
    unsigned long parts = 0;
    for (; said[0] != 0; said += 2) {
        if (said[0] == 3 /* AT_PHDR */) part = (const struct part *)said[1];
        if (said[0] == 5 /* AT_PHNUM */) parts = said[1];
    }
    for (; parts > 0; parts--, part++) {
        unsigned long at = part->at / PAGE * PAGE;
        for (; part->kind == 1 /* PT_LOAD */ && at < part->at + part->size; at += PAGE) {
            volatile char *octet = (volatile char *)(at < part->at ? part->at : at);
            if (part->rights & 2) *octet = *octet; else (void)*octet;
        }
    }
}

static void tell(const char *path, long number) {
    char text[21];
    size_t at = sizeof text;
    text[--at] = '\n';
    do text[--at] = (char)('0' + number % 10);
    while ((number /= 10) > 0);
    int file = open(path, 01101 /* O_WRONLY | O_CREAT | O_TRUNC */, 0600);
    if (file < 0 || write(file, text + at, sizeof text - at) != (long)(sizeof text - at)) raw(EXIT_GROUP, 99, 0, 0, 0, 0, 0);
}

void measured_begin(long *stack) {
    count = stack[0];
    words = (char **)(stack + 1);
    char **environment = words + count + 1;
    const char *pages = value_of(environment, "MEASURED_PAGES"), *height = value_of(environment, "MEASURED_STACK");
    raw(PRCTL, 41 /* PR_SET_THP_DISABLE */, 1, 0, 0, 0, 0);
    arena = (unsigned char *)raw(MMAP, 0, (long)ARENA, 3, 0x4022 /* MAP_PRIVATE | MAP_ANONYMOUS | MAP_NORESERVE */, -1, 0);
    arena_end = arena + ARENA;
    if (pages != NULL) touch_all(environment);
    long before = faults();
    struct ended ended = measured_main(height != NULL ? PAINTED : 0, count, words);
    long after = faults();
    if (pages != NULL) tell(pages, after - before);
    if (height != NULL) tell(height, ended.height);
    raw(EXIT_GROUP, ended.status, 0, 0, 0, 0, 0);
}
