/* Makes one read or write of a program's standard streams fail, and has the others move few bytes. It is preloaded:

       STREAM_0="STEP AFTER ERROR" [STREAM_1=..] [STREAM_2=..] LD_PRELOAD=streams.so PROGRAM ..

   A read of standard input (0), or a write to standard output (1) or standard error (2), moves at most STEP bytes. Once
   AFTER bytes were moved, one call fails by the number ERROR of errno.h, or moves no byte where that is 0; the calls after
   it work. No call fails where AFTER is -1. Only the process that the variables are given to does so, also once it runs
   another program; none of those that it starts. No header is read, so the toolchain's clang compiles it on a machine that
   has no other compiler:

       clang -O1 -shared -fPIC -nostdlib -fuse-ld=lld -o streams.so streams.c */
typedef unsigned long size_t;
typedef long ssize_t;

extern ssize_t __read(int, void *, size_t);
extern ssize_t __write(int, const void *, size_t);
extern int *__errno_location(void);
extern char *getenv(const char *);
extern int setenv(const char *, const char *, int);
extern int getpid(void);
extern int snprintf(char *, size_t, const char *, ...);
extern int strcmp(const char *, const char *);
extern long strtol(const char *, char **, int);

enum { STREAMS = 3 };
static struct stream {
    long step, after, error;
} streams[STREAMS];

/* whether this is the process that the variables are given to */
static int is_meant(void) {
    char own[24];
    snprintf(own, sizeof own, "%d", getpid());
    setenv("STREAM_PROCESS", own, 0);
    return strcmp(getenv("STREAM_PROCESS"), own) == 0;
}

__attribute__((constructor)) static void begin(void) {
    static const char *const names[STREAMS] = {"STREAM_0", "STREAM_1", "STREAM_2"};
    if (!is_meant()) return;
    for (int file = 0; file < STREAMS; file++) {
        char *rest = getenv(names[file]);
        if (!rest) continue;
        streams[file].step = strtol(rest, &rest, 10);
        streams[file].after = strtol(rest, &rest, 10);
        streams[file].error = strtol(rest, &rest, 10);
    }
}

/* what is asked for of this file, or nothing */
static struct stream *stream_of(int file) {
    return file >= 0 && file < STREAMS && streams[file].step > 0 ? &streams[file] : 0;
}

/* whether this call fails, of those that are to move bytes */
static int fails(struct stream *stream, size_t count) {
    if (!stream || stream->after != 0 || count == 0) return 0;
    stream->after = -1;
    *__errno_location() = (int)stream->error;
    return 1;
}

static size_t least(size_t count, long limit) { return limit >= 0 && (size_t)limit < count ? (size_t)limit : count; }

/* how many bytes this call may move */
static size_t allowed(const struct stream *stream, size_t count) {
    return stream ? least(least(count, stream->step), stream->after) : count;
}

static ssize_t moved(struct stream *stream, ssize_t count) {
    if (stream && stream->after > 0 && count > 0) stream->after -= count;
    return count;
}

ssize_t read(int file, void *bytes, size_t count) {
    struct stream *stream = stream_of(file);
    if (fails(stream, count)) return stream->error ? -1 : 0;
    return moved(stream, __read(file, bytes, allowed(stream, count)));
}

ssize_t write(int file, const void *bytes, size_t count) {
    struct stream *stream = stream_of(file);
    if (fails(stream, count)) return stream->error ? -1 : 0;
    return moved(stream, __write(file, bytes, allowed(stream, count)));
}
