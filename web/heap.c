// The heap of the module: what the C library is to the program of a system. `rattle_alloc`, `rattle_realloc` and
// `rattle_dealloc` are called by the proved code, by the contracts of the toolchain's `libc::heap`; the page takes and
// gives back room by `olr_page_take` and `olr_page_give`.
//
// The memory from `__heap_base` on is blocks side by side. A block begins with its size, a multiple of 16, whose two low
// bits say whether it is used and whether the one before it is. A free block has links to its neighbours in its list
// behind that, and its size once more at its end; two free blocks never touch. Each size has a list, of eight between a
// power of two and the next, and a block is taken from the first list of which each block is large enough.
typedef unsigned long long u64;
typedef long long i64;
typedef unsigned char u8;

#define USED 1ull
#define BEFORE_USED 2ull
#define SIZE (~15ull)
#define LEAST 32ull
#define PAGE 65536ull
#define LISTS 320
#ifndef MOST_PAGES
#define MOST_PAGES (65536ull - 256)
#endif

typedef struct Block {
    u64 size;
    struct Block *next, *previous;
} Block;

extern u8 __heap_base[];
static Block *lists[LISTS];
static u64 are_filled[LISTS / 64];
// The end of the memory that the heap has: a block of no bytes stands there, which is always used.
static u8 *end;

static void *at(void *base, i64 offset) {
    return (u8 *)base + offset;
}

static u64 size_of(const Block *block) {
    return block->size & SIZE;
}

// The list of blocks of a size.
static unsigned list_of(u64 size) {
    unsigned log = 63 - __builtin_clzll(size);
    return (log - 5) * 8 + ((size >> (log - 3)) & 7);
}

static void link_in(Block *block) {
    unsigned list = list_of(size_of(block));
    block->next = lists[list];
    block->previous = 0;
    if (block->next) {
        block->next->previous = block;
    }
    lists[list] = block;
    are_filled[list / 64] |= 1ull << list % 64;
}

static void link_out(Block *block) {
    unsigned list = list_of(size_of(block));
    if (block->next) {
        block->next->previous = block->previous;
    }
    if (block->previous) {
        block->previous->next = block->next;
    } else if (!(lists[list] = block->next)) {
        are_filled[list / 64] &= ~(1ull << list % 64);
    }
}

// Makes a free block of these bytes, behind a used one, and joins it to the next one if that is free.
static void set_free(Block *block, u64 size) {
    Block *next = at(block, size);
    if (!(next->size & USED)) {
        link_out(next);
        size += size_of(next);
        next = at(block, size);
    }
    block->size = size | BEFORE_USED;
    *(u64 *)at(next, -8) = size;
    next->size &= ~BEFORE_USED;
    link_in(block);
}

// Gives back what a used block has beyond these bytes.
static void shrink(Block *block, u64 size) {
    u64 rest = size_of(block) - size;
    if (rest >= LEAST) {
        block->size -= rest;
        Block *behind = at(block, size);
        behind->size = rest | USED | BEFORE_USED;
        set_free(behind, rest);
    }
}

static void release(Block *block) {
    u64 size = size_of(block);
    if (!(block->size & BEFORE_USED)) {
        u64 more = *(u64 *)at(block, -8);
        block = at(block, -(i64)more);
        link_out(block);
        size += more;
    }
    set_free(block, size);
}

// Asks the host for these pages. Where memory has 32 bits, a refusal is 32 bits of ones. The last pages of 32 bits are
// never asked for: an address below 0, where a stack that is too deep would go on, is one of these then, and traps.
static int are_given(u64 pages) {
    return __builtin_wasm_memory_size(0) + pages <= MOST_PAGES && (unsigned)__builtin_wasm_memory_grow(0, pages) != ~0u;
}

// Gets memory from the host for a block of these bytes.
static int is_grown(u64 size) {
    if (!end) {
        // (a block begins 8 bytes before an address that is a multiple of 16)
        u8 *start = (u8 *)(((u64)__heap_base + 15) / 16 * 16 + 8);
        end = (u8 *)(__builtin_wasm_memory_size(0) * PAGE) - 8;
        ((Block *)end)->size = USED | BEFORE_USED;
        if (end >= start + LEAST) {
            ((Block *)start)->size = (u64)(end - start) | USED | BEFORE_USED;
            release((Block *)start);
        }
        return 1;
    }
    Block *block = (Block *)end;
    u64 pages = (size + PAGE - 1) / PAGE;
    u64 more = pages / 8 > 16 ? pages / 8 : 16;
    if (are_given(pages + more)) {
        pages += more;
    } else if (!are_given(pages)) {
        return 0;
    }
    end += pages * PAGE;
    ((Block *)end)->size = USED;
    block->size = pages * PAGE | USED | (block->size & BEFORE_USED);
    release(block);
    return 1;
}

// A list of which each block has these bytes or more, and LISTS where there is none.
static unsigned list_with(u64 size) {
    u64 step = 1ull << (60 - __builtin_clzll(size));
    unsigned list = list_of(size + step - 1);
    u64 filled = are_filled[list / 64] >> list % 64 << list % 64;
    for (unsigned word = list / 64;;) {
        if (filled) {
            return word * 64 + __builtin_ctzll(filled);
        }
        if (++word == LISTS / 64) {
            return LISTS;
        }
        filled = are_filled[word];
    }
}

// The size of a block for these bytes, and 0 where there can be none.
static u64 block_for(u64 n) {
    if (n >> 40) {
        return 0;
    }
    u64 size = (n + 8 + 15) & SIZE;
    return size < LEAST ? LEAST : size;
}

static void *take(u64 n) {
    u64 size = block_for(n);
    if (!size) {
        return 0;
    }
    unsigned list;
    while ((list = list_with(size)) == LISTS) {
        // (a list's blocks may be an eighth larger than was asked)
        if (!is_grown(size + size / 8 + PAGE)) {
            return 0;
        }
    }
    Block *block = lists[list];
    link_out(block);
    block->size |= USED;
    ((Block *)at(block, size_of(block)))->size |= BEFORE_USED;
    shrink(block, size);
    return at(block, 8);
}

static void give(void *p) {
    release(at(p, -8));
}

static void *resize(void *p, u64 n) {
    Block *block = at(p, -8), *next = at(block, size_of(block));
    u64 size = block_for(n);
    if (!size) {
        return 0;
    }
    u64 had = size_of(block);
    if (had < size && !(next->size & USED) && had + size_of(next) >= size) {
        link_out(next);
        block->size += size_of(next);
        ((Block *)at(block, size_of(block)))->size |= BEFORE_USED;
        had = size_of(block);
    }
    if (had >= size) {
        shrink(block, size);
        return p;
    }
    void *moved = take(n);
    if (moved) {
        __builtin_memcpy(moved, p, had - 8);
        give(p);
    }
    return moved;
}

// What a call that takes memory answers: whether it has some, and where; else a pointer that isn't null.
typedef struct {
    u64 is_taken;
    void *at;
} Tried;

static Tried tried(void *p) {
    Tried answer = {p != 0, p ? p : lists};
    return answer;
}

Tried rattle_alloc(u64 n, u64 align) {
    return tried(take(n ? n : align));
}

Tried rattle_realloc(void *p, u64 kept, u64 n, u64 align) {
    return tried(resize(p, n ? n : align));
}

void rattle_dealloc(void *p) {
    give(p);
}

// (the attribute `export_name` of C would bring a table along, of 64 bits, which older hosts don't know)
__asm__(".export_name olr_page_take, olr_page_take\n.export_name olr_page_give, olr_page_give");

void *olr_page_take(u64 n) {
    return take(n);
}

void olr_page_give(void *p) {
    give(p);
}
