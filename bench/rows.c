/* Fills the rows of remaining totals of the widest table, written plainly, beside crates/olr_tools. */
#include <stdint.h>
#include <stdio.h>
#include <stdlib.h>
#include <time.h>

enum { LAYERS = 32, COUNT = 64, MOST = 360, MOST_OF_LEG = 100, WIDTH = LAYERS * MOST + (LAYERS - 1) * MOST_OF_LEG + 1 };

static uint16_t penalty[LAYERS][COUNT];            /* of the candidates of each layer, rising */
static uint8_t leg[LAYERS - 1][COUNT][COUNT];      /* of the legs from each candidate to those of the next layer */
static uint8_t *row[LAYERS][COUNT], *total;        /* a byte that isn't 0 marks a remaining total */

static uint64_t drawn = 1;

static uint32_t draw(uint32_t most) {
    drawn = drawn * 6364136223846793005u + 1442695040888963407u;
    return (uint32_t)(drawn >> 33) % (most + 1);
}

static int by_penalty(const void *a, const void *b) {
    return *(const uint16_t *)a - *(const uint16_t *)b;
}

static void draw_table(void) {
    for (int i = 0; i < LAYERS; i++) {
        for (int k = 0; k < COUNT - 1; k++) penalty[i][k] = (uint16_t)draw(MOST);
        penalty[i][COUNT - 1] = MOST;
        qsort(penalty[i], COUNT, sizeof penalty[i][0], by_penalty);
    }
    for (int i = 0; i < LAYERS - 1; i++) {
        for (int k = 0; k < COUNT * COUNT - 1; k++) leg[i][k / COUNT][k % COUNT] = (uint8_t)draw(MOST_OF_LEG);
        leg[i][COUNT - 1][COUNT - 1] = MOST_OF_LEG;
    }
}

static uint8_t *empty_row(void) {
    uint8_t *given = calloc(WIDTH, 1);
    if (!given) { fputs("no memory is left\n", stderr); exit(1); }
    return given;
}

static void or_shifted(uint8_t *restrict to, const uint8_t *restrict from, size_t shift) {
    for (size_t m = shift; m < WIDTH; m++) to[m] |= from[m - shift];
}

static void build(void) {
    for (int i = LAYERS - 1; i >= 0; i--)
        for (int a = 0; a < COUNT; a++) {
            row[i][a] = empty_row();
            if (i == LAYERS - 1) row[i][a][penalty[i][a]] = 1;
            else for (int b = 0; b < COUNT; b++) or_shifted(row[i][a], row[i + 1][b], penalty[i][a] + leg[i][a][b]);
        }
    total = empty_row();
    for (int a = 0; a < COUNT; a++) or_shifted(total, row[0][a], 0);
}

static void let_go(void) {
    for (int i = 0; i < LAYERS; i++)
        for (int a = 0; a < COUNT; a++) free(row[i][a]);
    free(total);
}

static unsigned long count(const uint8_t *marks) {
    unsigned long found = 0;
    for (int m = 0; m < WIDTH; m++) found += marks[m] > 0;
    return found;
}

static uint64_t now(void) {
    struct timespec t;
    clock_gettime(CLOCK_MONOTONIC, &t);
    return (uint64_t)t.tv_sec * 1000000000u + (uint64_t)t.tv_nsec;
}

int main(void) {
    draw_table();
    build();
    unsigned long remaining = 0, totals = count(total);
    for (int a = 0; a < COUNT; a++) remaining += count(row[0][a]);
    let_go();
    uint64_t begin = now();
    build();
    let_go();
    printf("%lu %lu\n%llu\n", remaining, totals, (unsigned long long)(now() - begin));
}
