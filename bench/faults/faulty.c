// A library for LD_PRELOAD: requests for memory, reads and writes that fail as the environment says.
//
// FAULTY_MEMORY=N    The Nth request for memory is refused; with N+ it and all later ones.
// FAULTY_INPUT=N:HOW The Nth read of standard input does HOW; with N+ it and all later ones.
// FAULTY_OUTPUT, FAULTY_ERRORS   The same of writes, of standard output and of standard error.
// FAULTY_PIECES=K    Each read and write of these moves K bytes at most.
// FAULTY_COUNT=FILE  Writes there how many requests, reads, writes and writes of errors were made.
//
// HOW is 'fails' (EIO), 'interrupted' (EINTR) or 'nothing' (a write that takes no byte).

#define _GNU_SOURCE
#include <dlfcn.h>
#include <errno.h>
#include <fcntl.h>
#include <stdint.h>
#include <stdio.h>
#include <stdlib.h>
#include <string.h>
#include <unistd.h>

extern void *__libc_malloc(size_t);
extern void *__libc_calloc(size_t, size_t);
extern void *__libc_realloc(void *, size_t);
extern void *__libc_memalign(size_t, size_t);

struct faults {
    const char *variable;
    long calls;
    long first;
    int all_later;
    char how[16];
};

static struct faults memory = {"FAULTY_MEMORY"};
static struct faults input = {"FAULTY_INPUT"};
static struct faults output = {"FAULTY_OUTPUT"};
static struct faults errors = {"FAULTY_ERRORS"};
static size_t pieces = SIZE_MAX;
// Requests before the program's own start are let through.
static int started;

static void read_setting(struct faults *it) {
    const char *text = getenv(it->variable);
    if (!text)
        return;
    char *rest;
    it->first = strtol(text, &rest, 10);
    if (*rest == '+') {
        it->all_later = 1;
        rest++;
    }
    if (*rest == ':')
        strncpy(it->how, rest + 1, sizeof it->how - 1);
}

__attribute__((constructor)) static void begin(void) {
    read_setting(&memory);
    read_setting(&input);
    read_setting(&output);
    read_setting(&errors);
    if (getenv("FAULTY_PIECES"))
        pieces = strtoul(getenv("FAULTY_PIECES"), NULL, 10);
    started = 1;
}

// Counts a call, and answers whether it meets the fault.
static int meets(struct faults *it) {
    if (!started)
        return 0;
    it->calls++;
    return it->first && (it->calls == it->first || (it->all_later && it->calls > it->first));
}

static int refused(void) {
    if (!meets(&memory))
        return 0;
    errno = ENOMEM;
    return 1;
}

void *malloc(size_t size) { return refused() ? NULL : __libc_malloc(size); }
void *calloc(size_t count, size_t size) { return refused() ? NULL : __libc_calloc(count, size); }
void *realloc(void *block, size_t size) { return refused() ? NULL : __libc_realloc(block, size); }
void *aligned_alloc(size_t align, size_t size) { return refused() ? NULL : __libc_memalign(align, size); }
void *memalign(size_t align, size_t size) { return refused() ? NULL : __libc_memalign(align, size); }
int posix_memalign(void **block, size_t align, size_t size) {
    if (refused())
        return ENOMEM;
    *block = __libc_memalign(align, size);
    return *block ? 0 : ENOMEM;
}

// Whether a call does something else than to move bytes, and then its answer.
static int is_faulty(struct faults *it, ssize_t *answer) {
    if (!meets(it))
        return 0;
    errno = strcmp(it->how, "interrupted") ? EIO : EINTR;
    *answer = strcmp(it->how, "nothing") ? -1 : 0;
    return 1;
}

static size_t least(size_t a, size_t b) { return a < b ? a : b; }

ssize_t read(int file, void *bytes, size_t size) {
    static ssize_t (*real)(int, void *, size_t);
    if (!real)
        real = dlsym(RTLD_NEXT, "read");
    if (file != STDIN_FILENO)
        return real(file, bytes, size);
    ssize_t answer;
    return is_faulty(&input, &answer) ? answer : real(file, bytes, least(size, pieces));
}

ssize_t write(int file, const void *bytes, size_t size) {
    static ssize_t (*real)(int, const void *, size_t);
    if (!real)
        real = dlsym(RTLD_NEXT, "write");
    if (file != STDOUT_FILENO && file != STDERR_FILENO)
        return real(file, bytes, size);
    ssize_t answer;
    return is_faulty(file == STDOUT_FILENO ? &output : &errors, &answer) ? answer : real(file, bytes, least(size, pieces));
}

__attribute__((destructor)) static void end(void) {
    const char *path = getenv("FAULTY_COUNT");
    if (!path)
        return;
    char line[128];
    int size = snprintf(line, sizeof line, "%ld %ld %ld %ld\n", memory.calls, input.calls, output.calls, errors.calls);
    int file = open(path, O_WRONLY | O_CREAT | O_TRUNC, 0600);
    ssize_t (*real)(int, const void *, size_t) = dlsym(RTLD_NEXT, "write");
    if (file >= 0 && real(file, line, size) == size)
        close(file);
}
