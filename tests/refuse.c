/* Refuses memory to the program that it is loaded before (LD_PRELOAD): the calls of malloc, calloc and realloc with the numbers
   from REFUSE_FIRST to REFUSE_LAST, counted from 1. It counts in the first 8 bytes of the file REFUSE_COUNT. A call of realloc
   that asks for no more bytes than 0 is counted too. For tests/refused_memory.py and the C library of GNU. */
#include <errno.h>
#include <fcntl.h>
#include <stdlib.h>
#include <sys/mman.h>

void *__libc_malloc(size_t);
void *__libc_calloc(size_t, size_t);
void *__libc_realloc(void *, size_t);

static unsigned long own, *count = &own, first, last;

__attribute__((constructor)) static void begin(void) {
    const char *path = getenv("REFUSE_COUNT"), *from = getenv("REFUSE_FIRST"), *to = getenv("REFUSE_LAST");
    int file = path ? open(path, O_RDWR) : -1;
    if (file < 0 || !from || !to)
        _Exit(99);
    count = mmap(0, sizeof *count, PROT_READ | PROT_WRITE, MAP_SHARED, file, 0);
    if (count == MAP_FAILED)
        _Exit(99);
    *count = 0;
    last = strtoul(to, 0, 10);
    first = strtoul(from, 0, 10);
}

static int refused(void) {
    unsigned long number = __atomic_add_fetch(count, 1, __ATOMIC_SEQ_CST);
    if (number < first || number > last)
        return 0;
    errno = ENOMEM;
    return 1;
}

void *malloc(size_t bytes) { return refused() ? 0 : __libc_malloc(bytes); }

void *calloc(size_t items, size_t bytes) { return refused() ? 0 : __libc_calloc(items, bytes); }

void *realloc(void *old, size_t bytes) { return refused() ? 0 : __libc_realloc(old, bytes); }
