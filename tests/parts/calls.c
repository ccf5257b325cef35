/*
 * Logs the calls of read and write that the program makes, and makes one of them fail.
 *
 * It is loaded before the C library (LD_PRELOAD). The environment says what to do:
 *
 *   CALLS_LOG    a file that gets a line for each call: its name, the descriptor, the size requested, and the
 *                result or the negative error, as in "read 0 4096 7" and "write 1 22 -11"
 *   CALLS_FAIL   the call that fails: "read 0 3 11" makes the third read from descriptor 0 fail with error 11,
 *                and "write 1 2 0" makes the second write to descriptor 1 take nothing
 *   CALLS_MOST   the largest number of octets that a call transfers
 */
#define _GNU_SOURCE
#include <errno.h>
#include <fcntl.h>
#include <stdio.h>
#include <stdlib.h>
#include <string.h>
#include <sys/syscall.h>
#include <unistd.h>

static int log_file = -1, failing_file = -1, failing_error, failing_number;
static char failing_call[8];
static size_t most = (size_t)-1;

__attribute__((constructor)) static void start(void) {
    const char *name = getenv("CALLS_LOG"), *fail = getenv("CALLS_FAIL"), *octets = getenv("CALLS_MOST");
    if (name) {
        int file = (int)syscall(SYS_openat, AT_FDCWD, name, O_WRONLY | O_APPEND | O_CREAT, 0600);
        /* A descriptor that the files of the program do not get. */
        log_file = fcntl(file, F_DUPFD_CLOEXEC, 100);
        syscall(SYS_close, file);
    }
    if (fail)
        sscanf(fail, "%7s %d %d %d", failing_call, &failing_file, &failing_number, &failing_error);
    if (octets)
        most = strtoul(octets, NULL, 10);
}

/* Returns whether this call must fail. */
static int fails(const char *call, int file) {
    return file == failing_file && strcmp(call, failing_call) == 0 && --failing_number == 0;
}

/* Logs a call with its result. Returns the result. */
static ssize_t noted(const char *call, int file, size_t size, ssize_t result) {
    char line[96];
    int error = errno;
    int length = snprintf(line, sizeof line, "%s %d %zu %zd\n", call, file, size, result < 0 ? -error : result);
    if (log_file >= 0)
        syscall(SYS_write, log_file, line, length);
    errno = error;
    return result;
}

static ssize_t called(const char *call, long number, int file, void *octets, size_t size) {
    if (fails(call, file)) {
        errno = failing_error;
        return noted(call, file, size, failing_error ? -1 : 0);
    }
    return noted(call, file, size, syscall(number, file, octets, size < most ? size : most));
}

ssize_t read(int file, void *octets, size_t size) {
    return called("read", SYS_read, file, octets, size);
}

ssize_t write(int file, const void *octets, size_t size) {
    return called("write", SYS_write, file, (void *)octets, size);
}
