/* Loaded before the C library (LD_PRELOAD), it makes one allocation of the program fail: the one of the number FAIL_AT,
   from 1 on, behind the program's start. In the child of a collection none fails. How many there were is written to the
   file TOLD. */
#define _GNU_SOURCE
#include <dlfcn.h>
#include <errno.h>
#include <fcntl.h>
#include <stdio.h>
#include <stdlib.h>
#include <string.h>
#include <unistd.h>

static void *(*its_malloc)(size_t), *(*its_calloc)(size_t, size_t), *(*its_realloc)(void *, size_t), *(*its_aligned)(size_t, size_t);
static int (*its_memalign)(void **, size_t, size_t);
static long count, number;
static int counts;

/* The loader may ask for memory before the functions of the C library are found. */
static char early[4096];
static size_t taken;

static void find(void) {
    if (its_malloc) return;
    its_malloc = dlsym(RTLD_NEXT, "malloc");
    its_calloc = dlsym(RTLD_NEXT, "calloc");
    its_realloc = dlsym(RTLD_NEXT, "realloc");
    its_aligned = dlsym(RTLD_NEXT, "aligned_alloc");
    its_memalign = dlsym(RTLD_NEXT, "posix_memalign");
}

static int fails(void) {
    find();
    if (!counts || ++count != number) return 0;
    errno = ENOMEM;
    return 1;
}

__attribute__((constructor)) static void begin(void) {
    char words[64] = {0}, *given = getenv("FAIL_AT");
    find();
    number = given ? atol(given) : 0;
    int file = open("/proc/self/cmdline", O_RDONLY);
    ssize_t length = file < 0 ? 0 : read(file, words, sizeof words - 1);
    close(file);
    size_t first = strlen(words) + 1;
    counts = !((ssize_t)first < length && !strcmp(words + first, "worker"));
}

__attribute__((destructor)) static void end(void) {
    char *told = getenv("TOLD");
    if (!counts || !told) return;
    counts = 0;
    int file = open(told, O_WRONLY | O_CREAT | O_TRUNC, 0600);
    dprintf(file, "%ld", count);
    close(file);
}

void *malloc(size_t size) { return fails() ? 0 : its_malloc(size); }
void *realloc(void *old, size_t size) { return fails() ? 0 : its_realloc(old, size); }
void *aligned_alloc(size_t align, size_t size) { return fails() ? 0 : its_aligned(align, size); }
int posix_memalign(void **at, size_t align, size_t size) { return fails() ? ENOMEM : its_memalign(at, align, size); }

void *calloc(size_t many, size_t size) {
    if (its_calloc) return fails() ? 0 : its_calloc(many, size);
    void *at = early + taken;
    taken += (many * size + 15) & ~(size_t)15;
    if (taken > sizeof early) abort();
    return at;
}
