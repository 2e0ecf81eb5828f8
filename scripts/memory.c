/* Counts what a program asks of the allocator, and refuses what it is told to refuse. It is preloaded:

       MEMORY_TO=FILE [MEMORY_REFUSE=N [MEMORY_ONWARDS=1]] LD_PRELOAD=memory.so PROGRAM ..

   A request is a call of malloc, calloc or realloc, which are all that a program of this repository calls. The Nth is
   refused, or the Nth and all after it. FILE gets a line before each write to standard output and one when the program
   ends: which it is, the requests so far, the bytes in use, the most that were since the line before, and the blocks in
   use. The bytes are those of the allocator's blocks, which are a little longer than what was asked for. A block that is
   freed twice ends the program by the allocator's own check. No header is read, so the toolchain's clang compiles it on
   a machine that has no other compiler:

       clang -O1 -shared -fPIC -nostdlib -fuse-ld=lld -o memory.so memory.c */
typedef unsigned long size_t;
typedef long ssize_t;
enum { WRITE_ONLY = 01, CREATE = 0100, TRUNCATE = 01000, CLOSE_ON_EXEC = 02000000 };

extern void *__libc_malloc(size_t);
extern void *__libc_calloc(size_t, size_t);
extern void *__libc_realloc(void *, size_t);
extern void __libc_free(void *);
extern size_t malloc_usable_size(void *);
extern ssize_t __write(int, const void *, size_t);
extern int open(const char *, int, ...);
extern char *getenv(const char *);
extern long atol(const char *);
extern int snprintf(char *, size_t, const char *, ...);
extern void _exit(int);

static long requests, in_use, most, blocks, refused_from, onwards;
static int to = -1;

__attribute__((constructor)) static void begin(void) {
    const char *file = getenv("MEMORY_TO"), *from = getenv("MEMORY_REFUSE");
    if (file) to = open(file, WRITE_ONLY | CREATE | TRUNCATE | CLOSE_ON_EXEC, 0600);
    onwards = getenv("MEMORY_ONWARDS") != 0;
    requests = in_use = most = blocks = 0;
    refused_from = from ? atol(from) : 0;
}

static void tell(const char *what) {
    char line[160];
    int len = snprintf(line, sizeof line, "%s requests %ld in_use %ld most %ld blocks %ld\n", what, requests, in_use, most, blocks);
    most = in_use;
    if (to >= 0 && __write(to, line, (size_t)len) < 0) _exit(99);
}

__attribute__((destructor)) static void end(void) { tell("end"); }

/* whether this request is refused */
static int refuses(void) {
    requests++;
    return refused_from && (requests == refused_from || (onwards && requests > refused_from));
}

static void *given(void *block) {
    if (block) {
        in_use += (long)malloc_usable_size(block);
        blocks++;
        if (in_use > most) most = in_use;
    }
    return block;
}

static void taken(void *block) {
    if (block) {
        in_use -= (long)malloc_usable_size(block);
        blocks--;
    }
}

void *malloc(size_t size) { return refuses() ? 0 : given(__libc_malloc(size)); }

void *calloc(size_t count, size_t size) { return refuses() ? 0 : given(__libc_calloc(count, size)); }

void *realloc(void *block, size_t size) {
    if (refuses()) return 0;
    taken(block);
    void *made = __libc_realloc(block, size);
    if (!made && size) given(block);
    return given(made);
}

void free(void *block) {
    taken(block);
    __libc_free(block);
}

ssize_t write(int file, const void *bytes, size_t count) {
    if (file == 1) tell("write");
    return __write(file, bytes, count);
}
