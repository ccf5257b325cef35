/*
 * Refuses requests for memory that the program makes, and counts them.
 *
 * It is loaded before the C library (LD_PRELOAD). A request is a call of malloc, calloc, realloc,
 * reallocarray, aligned_alloc or posix_memalign by the program itself. Requests of the loader and of the
 * C library are neither counted nor refused. The environment says what to do:
 *
 *   REFUSE_FIRST, REFUSE_LAST   the first and the last request that are refused, counted from 1
 *   REFUSE_LOG                  a file that gets a line "open N NAME" when the program opens a file after
 *                               N requests, and a line "end N M" when it ends after N requests, of which
 *                               M were refused
 */
#define _GNU_SOURCE
#include <errno.h>
#include <fcntl.h>
#include <link.h>
#include <stdarg.h>
#include <stddef.h>
#include <stdint.h>
#include <stdio.h>
#include <stdlib.h>
#include <string.h>
#include <sys/syscall.h>
#include <unistd.h>

/* The C library's own functions, under names that no other library defines. */
extern void *__libc_malloc(size_t);
extern void *__libc_calloc(size_t, size_t);
extern void *__libc_realloc(void *, size_t);
extern void *__libc_memalign(size_t, size_t);

static unsigned long first, last, count, refused;
static uintptr_t begin, end;

/* Finds the addresses of the program itself, which is the first of the loaded objects. */
static int place(struct dl_phdr_info *info, size_t size, void *data) {
    (void)size, (void)data;
    for (int index = 0; index < info->dlpi_phnum; index++) {
        const ElfW(Phdr) *part = &info->dlpi_phdr[index];
        if (part->p_type != PT_LOAD || !(part->p_flags & PF_X))
            continue;
        uintptr_t at = info->dlpi_addr + part->p_vaddr;
        if (begin == 0 || at < begin)
            begin = at;
        if (at + part->p_memsz > end)
            end = at + part->p_memsz;
    }
    return 1;
}

static unsigned long number_of(const char *name) {
    const char *text = getenv(name);
    return text ? strtoul(text, NULL, 10) : 0;
}

__attribute__((constructor)) static void start(void) {
    first = number_of("REFUSE_FIRST");
    last = number_of("REFUSE_LAST");
    dl_iterate_phdr(place, NULL);
}

static int is_own(const void *caller) {
    return (uintptr_t)caller >= begin && (uintptr_t)caller < end;
}

/* Counts a request. Returns whether it is refused. */
static int is_refused(const void *caller) {
    if (!is_own(caller))
        return 0;
    count++;
    if (count < first || count > last)
        return 0;
    refused++;
    errno = ENOMEM;
    return 1;
}

static void note(const char *line) {
    const char *name = getenv("REFUSE_LOG");
    int before = errno, how = O_WRONLY | O_APPEND | O_CREAT | O_CLOEXEC;
    int file = name ? (int)syscall(SYS_openat, AT_FDCWD, name, how, 0600) : -1;
    if (file >= 0) {
        syscall(SYS_write, file, line, strlen(line));
        syscall(SYS_close, file);
    }
    errno = before;
}

__attribute__((destructor)) static void stop(void) {
    char line[64];
    snprintf(line, sizeof line, "end %lu %lu\n", count, refused);
    note(line);
}

#define CALLER __builtin_return_address(0)

void *malloc(size_t size) {
    return is_refused(CALLER) ? NULL : __libc_malloc(size);
}

void *calloc(size_t items, size_t size) {
    return is_refused(CALLER) ? NULL : __libc_calloc(items, size);
}

void *realloc(void *block, size_t size) {
    return is_refused(CALLER) ? NULL : __libc_realloc(block, size);
}

void *reallocarray(void *block, size_t items, size_t size) {
    size_t octets;
    if (__builtin_mul_overflow(items, size, &octets)) {
        errno = ENOMEM;
        return NULL;
    }
    return is_refused(CALLER) ? NULL : __libc_realloc(block, octets);
}

void *aligned_alloc(size_t align, size_t size) {
    return is_refused(CALLER) ? NULL : __libc_memalign(align, size);
}

int posix_memalign(void **block, size_t align, size_t size) {
    if (is_refused(CALLER))
        return ENOMEM;
    *block = __libc_memalign(align, size);
    return *block ? 0 : ENOMEM;
}

int open(const char *name, int flags, ...) {
    va_list more;
    va_start(more, flags);
    int mode = va_arg(more, int);
    va_end(more);
    if (is_own(CALLER)) {
        char line[512];
        snprintf(line, sizeof line, "open %lu %.400s\n", count, name);
        note(line);
    }
    return (int)syscall(SYS_openat, AT_FDCWD, name, flags, mode);
}
