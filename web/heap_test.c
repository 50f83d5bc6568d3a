// Tries heap.c on this machine, with 400,000 calls that are drawn: blocks keep what was written to them, lie at multiples
// of 16, and don't overlap; free blocks never touch; in the end all is one free block. A refused growth is an answer.
//
//     cc -O1 -fsanitize=undefined,address -fno-strict-aliasing web/heap_test.c -o heap_test && ./heap_test [PAGES]
#include <stdio.h>
#include <stdlib.h>
#include <string.h>

_Alignas(65536) unsigned char __heap_base[4096 * 65536];
static unsigned long long pages = 2, most = 4096;

static unsigned long long grown(unsigned long long more) {
    if (pages + more > most) {
        return 0xffffffff;
    }
    pages += more;
    return pages - more;
}

#define MOST_PAGES (~0ull)
#define __builtin_wasm_memory_grow(memory, more) grown(more)
#define __builtin_wasm_memory_size(memory) ((unsigned long long)__heap_base / 65536 + pages)
#define __asm__(text) _Static_assert(1, "")
#include "heap.c"

#define COUNT 3000
static unsigned char *blocks[COUNT];
static size_t sizes[COUNT];

static void require(int holds, const char *what) {
    if (!holds) {
        printf("%s\n", what);
        exit(1);
    }
}

static int is_kept(unsigned char *block, size_t size, int mark) {
    for (size_t at = 0; at < size; at++) {
        if (block[at] != (unsigned char)mark) {
            return 0;
        }
    }
    return 1;
}

static void walk(void) {
    u8 *at_block = __heap_base + 8;
    int was_used = 1;
    while (at_block < end) {
        Block *block = (Block *)at_block;
        int is_used = block->size & USED;
        require(!!(block->size & BEFORE_USED) == was_used, "a block is wrong about the one before it");
        require(is_used || was_used, "two free blocks touch");
        require(is_used || *(u64 *)at(block, (i64)size_of(block) - 8) == size_of(block), "a free block's end is wrong");
        was_used = is_used;
        at_block += size_of(block);
    }
    require(at_block == end, "the blocks don't fill the memory");
}

int main(int count, char **words) {
    if (count > 1) {
        most = strtoull(words[1], 0, 10);
    }
    unsigned long refused = 0;
    srand(7);
    for (long call = 0; call < 400000; call++) {
        int which = rand() % COUNT, kind = rand() % 8;
        size_t size = rand() % (kind == 0 ? 300000 : kind == 1 ? 8000 : 200);
        unsigned char *old = blocks[which];
        if (old && rand() % 3 == 0) {
            require(is_kept(old, sizes[which], which), "a block lost what was written");
            give(old);
            blocks[which] = 0;
            continue;
        }
        unsigned char *block = old ? resize(old, size) : take(size);
        if (!block) {
            refused++;
            continue;
        }
        require((size_t)block % 16 == 0, "a block lies at no multiple of 16");
        require(!old || is_kept(block, size < sizes[which] ? size : sizes[which], which), "a resized block lost what was written");
        memset(block, which, size);
        blocks[which] = block;
        sizes[which] = size;
        if (call % 20000 == 0) {
            walk();
        }
    }
    for (int which = 0; which < COUNT; which++) {
        if (blocks[which]) {
            give(blocks[which]);
        }
    }
    walk();
    require(size_of((Block *)(__heap_base + 8)) == (u64)(end - __heap_base) - 8, "in the end there is more than one free block");
    printf("%lu of 400000 calls were refused, %llu pages\n", refused, pages);
}
