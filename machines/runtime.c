// What the program calls beyond the C library, where it is linked without the toolchain's own objects: memory, the error
// number, and the words that it was started with. No proof covers this file, as none covers the C library.

#include <errno.h>
#include <stdbool.h>
#include <stddef.h>
#include <stdint.h>
#include <stdlib.h>
#include <sys/types.h>

// ---- memory

// Whether there is a block, and where. Where there is none, the place is that of no block, but isn't null either.
struct tried {
    bool is_there;
    void *place;
};

static max_align_t no_block;

static struct tried tried(void *place) {
    return place ? (struct tried){true, place} : (struct tried){false, &no_block};
}

// (a block without bytes has a place of its own too; malloc aligns as much as any `align` that comes)
struct tried rattle_alloc(size_t size, size_t align) {
    return tried(malloc(size ? size : align));
}

struct tried rattle_realloc(void *place, size_t kept, size_t size, size_t align) {
    (void)kept;
    return tried(realloc(place, size ? size : align));
}

void rattle_dealloc(void *place) {
    free(place);
}

// ---- the error number

int32_t rattle_errno(void) {
    return errno;
}

void rattle_set_errno(int32_t number) {
    errno = number;
}

// ---- words

static size_t word_count;
static char **words;

// The C library calls this before `main`.
__attribute__((constructor)) static void keep_words(int count, char **given) {
    word_count = (size_t)count;
    words = given;
}

// Copies a text without its end. Answers its length, -1 where there is no text, and -2 where the buffer is too short for it
// and is full.
static ssize_t copied(const char *text, uint8_t *buffer, size_t size) {
    if (!text) return -1;
    size_t length = 0;
    for (; text[length]; length++) {
        if (length == size) return -2;
        buffer[length] = (uint8_t)text[length];
    }
    return (ssize_t)length;
}

ssize_t rattle_arg(size_t index, uint8_t *buffer, size_t size) {
    return copied(index < word_count ? words[index] : NULL, buffer, size);
}
