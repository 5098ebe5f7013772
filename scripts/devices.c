/* Reads and writes that fail or are cut short, for the scripts beside the gate (LD_PRELOAD): the read of number FAIL_READ, or the write of number
   FAIL_WRITE, fails, standard error and reads from the outputs apart; a read moves MOST_READ bytes at the most, a write MOST_WRITE. */
#define _GNU_SOURCE
#include <dlfcn.h>
#include <errno.h>
#include <stdlib.h>
#include <unistd.h>
static int fails(const char *name, long *count) {
    const char *which = getenv(name);
    return which && ++*count == atol(which);
}
static size_t portion(const char *name, size_t size) {
    const char *most = getenv(name);
    return most && size > (size_t)atol(most) ? (size_t)atol(most) : size;
}
ssize_t read(int file, void *to, size_t most) {
    static ssize_t (*real)(int, void *, size_t);
    static long count;
    if (!real) real = dlsym(RTLD_NEXT, "read");
    if (file == 1 || file == 2) return real(file, to, most);
    if (fails("FAIL_READ", &count)) { errno = EIO; return -1; }
    return real(file, to, portion("MOST_READ", most));
}
ssize_t write(int file, const void *from, size_t size) {
    static ssize_t (*real)(int, const void *, size_t);
    static long count;
    if (!real) real = dlsym(RTLD_NEXT, "write");
    if (file == 2) return real(file, from, size);
    if (fails("FAIL_WRITE", &count)) { errno = EIO; return -1; }
    return real(file, from, portion("MOST_WRITE", size));
}
