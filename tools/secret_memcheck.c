/* Beside a program of tools/secret_memcheck, whose calls of read and write go here (ld's --wrap): for memcheck the first
   SECRET_LEN bytes of standard input are undefined, and what is written is defined, since it is public then. */
#include <stdlib.h>
#include <unistd.h>
#include <valgrind/memcheck.h>

ssize_t __real_read(int, void *, size_t);
ssize_t __real_write(int, const void *, size_t);

ssize_t __wrap_read(int file, void *to, size_t len) {
    ssize_t count = __real_read(file, to, len);
    ssize_t secret = atol(getenv("SECRET_LEN"));
    if (file == 0 && count > 0)
        VALGRIND_MAKE_MEM_UNDEFINED(to, secret < count ? secret : count);
    return count;
}

ssize_t __wrap_write(int file, const void *from, size_t len) {
    VALGRIND_MAKE_MEM_DEFINED(from, len);
    return __real_write(file, from, len);
}
