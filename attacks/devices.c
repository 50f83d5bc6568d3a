/* Devices that fail. Preloaded into a program (Linux, glibc), it counts the reads of input and the writes to the standard output, makes
   each move at most WIDTH bytes, and lets the call of number FAIL_READ or FAIL_WRITE, counted from 1, and all behind it if STAYS is set, fail
   with the error ERROR; 0 stands for a call that moves no byte. For each call it writes a byte to the file descriptor NOTES: the digit of the
   descriptor that is read, or `w`; in upper case or as a letter, `A` for descriptor 0, if it failed. attacks/devices.py builds and uses it. */
#define _GNU_SOURCE
#include <errno.h>
#include <stdlib.h>
#include <sys/syscall.h>
#include <sys/uio.h>
#include <unistd.h>

static long width, fail_read, fail_write, stays, error_number, reads, writes;
static int log_to = -1;

static long number_of(const char *name, long otherwise) {
    const char *text = getenv(name);
    return text ? strtol(text, NULL, 10) : otherwise;
}

__attribute__((constructor)) static void begin(void) {
    width = number_of("WIDTH", 0);
    fail_read = number_of("FAIL_READ", 0);
    fail_write = number_of("FAIL_WRITE", 0);
    stays = number_of("STAYS", 0);
    error_number = number_of("ERROR", EIO);
    log_to = (int)number_of("NOTES", -1);
}

static void note(char what) {
    if (log_to >= 0) {
        syscall(SYS_write, log_to, &what, 1);
    }
}

static int fails(long call, long from) {
    return from > 0 && (call == from || (stays && call > from));
}

static ssize_t failed(void) {
    errno = (int)error_number;
    return error_number ? -1 : 0;
}

static size_t at_most(size_t count) {
    return width > 0 && count > (size_t)width ? (size_t)width : count;
}

ssize_t read(int from, void *bytes, size_t count) {
    if (from == 1 || from == 2 || from == log_to) {
        return syscall(SYS_read, from, bytes, count);
    }
    if (fails(++reads, fail_read)) {
        note((char)('A' + from));
        return failed();
    }
    note((char)('0' + from));
    return syscall(SYS_read, from, bytes, at_most(count));
}

ssize_t readv(int from, const struct iovec *parts, int count) {
    return count > 0 ? read(from, parts[0].iov_base, parts[0].iov_len) : 0;
}

ssize_t write(int to, const void *bytes, size_t count) {
    if (to != 1) {
        return syscall(SYS_write, to, bytes, count);
    }
    if (fails(++writes, fail_write)) {
        note('W');
        return failed();
    }
    note('w');
    return syscall(SYS_write, to, bytes, at_most(count));
}

ssize_t writev(int to, const struct iovec *parts, int count) {
    for (int part = 0; part < count; part++) {
        if (parts[part].iov_len > 0) {
            return write(to, parts[part].iov_base, parts[part].iov_len);
        }
    }
    return 0;
}
