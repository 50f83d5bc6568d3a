/* An allocator that refuses. Preloaded into a program (Linux, glibc), it counts the calls that ask for memory, and refuses the call of number
   REFUSE_FROM, counted from 1, and those behind it up to number REFUSE_TO. It writes a byte to the file descriptor NOTES for each refusal.
   attacks/refused_memory.py and attacks/again.py build and use it. */
#include <errno.h>
#include <stddef.h>
#include <stdlib.h>
#include <unistd.h>

extern void *__libc_malloc(size_t size);
extern void *__libc_calloc(size_t count, size_t size);
extern void *__libc_realloc(void *block, size_t size);
extern void *__libc_memalign(size_t alignment, size_t size);

static unsigned long calls, first, last;
static int refused_to = -1;

static unsigned long number_of(const char *name) {
    const char *text = getenv(name);
    return text ? strtoul(text, NULL, 10) : 0;
}

__attribute__((constructor)) static void begin(void) {
    first = number_of("REFUSE_FROM");
    last = number_of("REFUSE_TO");
    refused_to = (int)number_of("NOTES");
    calls = 0;
}

static int is_refused(void) {
    calls++;
    if (first == 0 || calls < first || calls > last) {
        return 0;
    }
    if (write(refused_to, "r", 1) != 1) {
        abort();
    }
    errno = ENOMEM;
    return 1;
}

void *malloc(size_t size) {
    return is_refused() ? NULL : __libc_malloc(size);
}

void *calloc(size_t count, size_t size) {
    return is_refused() ? NULL : __libc_calloc(count, size);
}

void *realloc(void *block, size_t size) {
    return is_refused() ? NULL : __libc_realloc(block, size);
}

void *aligned_alloc(size_t alignment, size_t size) {
    return is_refused() ? NULL : __libc_memalign(alignment, size);
}

void *memalign(size_t alignment, size_t size) {
    return is_refused() ? NULL : __libc_memalign(alignment, size);
}

int posix_memalign(void **block, size_t alignment, size_t size) {
    if (is_refused()) {
        return ENOMEM;
    }
    *block = __libc_memalign(alignment, size);
    return *block ? 0 : ENOMEM;
}
