/* A library to be loaded before a program (LD_PRELOAD): of the program's reads and writes, counted together from 1, call FAILING_CALL
   fails with an error of the device, and each of the others moves at most MOST_BYTES bytes; without such a variable none does. */
#include <errno.h>
#include <stdlib.h>
#include <sys/syscall.h>
#include <unistd.h>

static long calls;

static long number_of(const char *variable) {
    const char *text = getenv(variable);
    return text ? atol(text) : 0;
}

static ssize_t call(long kind, int file, const void *bytes, size_t count) {
    size_t most = number_of("MOST_BYTES");
    calls++;
    if (calls == number_of("FAILING_CALL")) {
        errno = EIO;
        return -1;
    }
    return syscall(kind, file, bytes, most > 0 && most < count ? most : count);
}

ssize_t read(int file, void *into, size_t count) {
    return call(SYS_read, file, into, count);
}

ssize_t write(int file, const void *from, size_t count) {
    return call(SYS_write, file, from, count);
}
