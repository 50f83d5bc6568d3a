// Tests runtime.c by what the toolchain's contracts ask of its functions: .ci/release-check runs it on both machines, as
//
//     runtime_test ab ''

#include <stdio.h>
#include <stdlib.h>
#include <string.h>

// An allocator that refuses when it is told to.
static int is_refused;

static void *tried_malloc(size_t size) {
    return is_refused ? NULL : malloc(size);
}

static void *tried_realloc(void *place, size_t size) {
    return is_refused ? NULL : realloc(place, size);
}

#define malloc tried_malloc
#define realloc tried_realloc
#include "runtime.c"

static int failures;

static void require(int holds, const char *what) {
    if (holds) return;
    failures++;
    fprintf(stderr, "runtime_test: %s\n", what);
}

#define REQUIRE(condition) require(condition, #condition)

static uint8_t buffer[16];

// Whether a text was put at the start of the buffer, and nothing behind it.
static int has(const char *text) {
    size_t length = strlen(text);
    int holds = memcmp(buffer, text, length) == 0;
    for (size_t at = length; at < sizeof buffer; at++) holds &= buffer[at] == '.';
    memset(buffer, '.', sizeof buffer);
    return holds;
}

static int is_aligned(struct tried block) {
    return block.place && (uintptr_t)block.place % 16 == 0;
}

static void test_words(void) {
    has("");
    REQUIRE(rattle_arg(1, buffer, sizeof buffer) == 2 && has("ab"));
    REQUIRE(rattle_arg(1, buffer, 2) == 2 && has("ab"));
    REQUIRE(rattle_arg(1, buffer, 1) == -2 && has("a"));
    REQUIRE(rattle_arg(1, buffer, 0) == -2 && has(""));
    REQUIRE(rattle_arg(2, buffer, 1) == 0 && has(""));
    REQUIRE(rattle_arg(2, buffer, 0) == 0 && has(""));
    REQUIRE(rattle_arg(3, buffer, 1) == -1 && has(""));
    REQUIRE(rattle_arg(SIZE_MAX, buffer, 1) == -1 && has(""));
}

static void test_error_number(void) {
    for (int32_t number = 0; number < 200; number++) {
        rattle_set_errno(number);
        REQUIRE(rattle_errno() == number && errno == number);
    }
}

static void test_memory(void) {
    struct tried empty = rattle_alloc(0, 1), block = rattle_alloc(16, 16);
    REQUIRE(empty.is_there && block.is_there && is_aligned(empty) && is_aligned(block));
    REQUIRE(empty.place != block.place);
    memcpy(block.place, "sixteen letters", 16);
    is_refused = 1;
    struct tried none = rattle_alloc(8, 8), grown = rattle_realloc(block.place, 16, 1 << 20, 16);
    REQUIRE(!none.is_there && !grown.is_there && is_aligned(none) && is_aligned(grown));
    REQUIRE(memcmp(block.place, "sixteen letters", 16) == 0);
    is_refused = 0;
    grown = rattle_realloc(block.place, 16, 1 << 20, 16);
    REQUIRE(grown.is_there && is_aligned(grown) && memcmp(grown.place, "sixteen letters", 16) == 0);
    block = rattle_realloc(grown.place, 0, 0, 16);
    REQUIRE(block.is_there && is_aligned(block));
    rattle_dealloc(block.place);
    rattle_dealloc(empty.place);
}

int main(void) {
    test_words();
    test_error_number();
    test_memory();
    return failures != 0;
}
