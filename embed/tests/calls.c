/* Calls of the library over table files of both versions: calls FOLDER1 FOLDER2. The first has
 * files of version 1, the second those of the same pairs in version 2. Prints what was found, and
 * ends with 0 where all was right. */
#define _POSIX_C_SOURCE 199309L
#include "check.h"
#include "morris_folder.h"

#include <stdio.h>
#include <stdlib.h>
#include <string.h>
#include <time.h>

static double now(void) {
    struct timespec t;
    clock_gettime(CLOCK_MONOTONIC, &t);
    return (double)t.tv_sec + 1e-9 * (double)t.tv_nsec;
}

static int count_of(uint32_t mask) {
    int n = 0;
    for (; mask != 0; mask &= mask - 1) {
        n++;
    }
    return n;
}

static int32_t look(const morris_folder *t, uint32_t own, uint32_t other, morris_value *out) {
    return morris_lookup(t->board, t->files, t->n, t->words, t->m, own, other, out);
}

/* How good a value is for the player to move: sooner wins and later losses are better. */
static int score(morris_value v) {
    return v.kind == MORRIS_DRAW ? 0 : v.kind == MORRIS_WON ? 100000 - v.depth : v.depth - 100000;
}

/* Whether the value of a position follows from those of its moves, and they are in order. */
static void bear_out(const morris_folder *t, uint32_t own, uint32_t other, morris_value value) {
    static morris_move moves[MORRIS_MOST_MOVES];
    size_t count = 77, i;
    int best = -1000000;
    IS(morris_moves(t->board, t->files, t->n, t->words, t->m, own, other, moves, MORRIS_MOST_MOVES, &count), 0);
    for (i = 0; i < count; i++) {
        const morris_move *m = &moves[i];
        uint32_t left = m->taken == MORRIS_NONE ? other : other & ~(1u << m->taken);
        uint32_t went = (own & ~(1u << m->from)) | 1u << m->to;
        morris_value next;
        IS(look(t, left, went, &next), 0);
        IS(m->value.kind, next.kind == MORRIS_DRAW ? MORRIS_DRAW : next.kind == MORRIS_WON ? MORRIS_LOST : MORRIS_WON);
        IS(m->value.depth, next.kind == MORRIS_DRAW ? 0 : next.depth + 1);
        IS(m->pad, 0);
        if (score(m->value) > best) {
            best = score(m->value);
        }
        if (i > 0) {
            const morris_move *b = &moves[i - 1];
            IS((b->from << 16 | b->to << 8 | b->taken) < (m->from << 16 | m->to << 8 | m->taken), 1);
        }
    }
    IS(count > 0 ? best : -100000, score(value));
}

/* All positions of Grid, in both versions. */
static void all_of_grid(const morris_folder *one, const morris_folder *two) {
    uint32_t own, other;
    size_t positions = 0;
    for (own = 0; own < 512; own++) {
        for (other = 0; other < 512; other++) {
            morris_value a = {9, 9}, b = {9, 9};
            int32_t status = look(one, own, other, &a);
            int o = count_of(own), p = count_of(other);
            IS(look(two, own, other, &b), status);
            if ((own & other) != 0) {
                IS(status, MORRIS_OVERLAP);
            } else if (o < 2 || o > 9 || p < 3 || p > 9) {
                IS(status, MORRIS_STONES);
            } else {
                IS(status, MORRIS_OK);
                IS(a.kind, b.kind);
                IS(a.depth, b.depth);
                bear_out(one, own, other, a);
                bear_out(two, own, other, b);
                positions++;
            }
            if (status != MORRIS_OK) {
                IS(a.kind * 10 + a.depth, 99);
            }
        }
    }
    printf("grid: %zu positions, in either version\n", positions);
}

/* Each fault. */
static void faults(const morris_folder *one, const morris_folder *two) {
    morris_view view = one->files[0];
    uint8_t *copy = malloc(view.len + 1);
    morris_view bad = {copy, view.len};
    morris_header header;
    morris_value value;
    static morris_move moves[8];
    size_t count = 5;
    uint32_t words[9] = {0}, own = 0x7, other = 0x38;
    memcpy(copy, view.bytes, view.len);
    IS(morris_lookup(2, one->files, one->n, one->words, 0, own, other, &value), MORRIS_NO_BOARD);
    IS(look(one, 0x207, other, &value), MORRIS_OFF_BOARD);
    IS(look(one, own, 0xffffffff, &value), MORRIS_OFF_BOARD);
    IS(look(one, own, 0x1c, &value), MORRIS_OVERLAP);
    IS(look(one, 1, other, &value), MORRIS_STONES);
    IS(morris_lookup(1, one->files, 0, one->words, 0, own, other, &value), MORRIS_NO_TABLE);
    IS(morris_lookup(1, two->files, two->n, two->words, 0, own, other, &value), MORRIS_NOT_PREPARED);
    IS(morris_lookup(1, two->files, two->n, words, 9, own, other, &value), MORRIS_NOT_PREPARED);
    IS(morris_lookup(1, two->files, two->n, two->words, two->m - 1, own, other, &value), MORRIS_NOT_PREPARED);
    IS(morris_lookup(1, one->files, one->n, words, 9, own, other, &value), MORRIS_OK);
    IS(morris_moves(1, one->files, one->n, one->words, 0, own, other, moves, 8, &count), MORRIS_ROOM);
    IS(count, 5);
    IS(morris_moves(1, one->files, 0, one->words, 0, own, other, moves, 8, &count), MORRIS_ROOM);
    IS(morris_prepare_size(7), 0);
    IS(morris_prepare(7, words, 9), MORRIS_NO_BOARD);
    IS(morris_prepare(1, words, 9), MORRIS_ROOM);
    IS(morris_prepare(1, words, 0), MORRIS_ROOM);
    IS(morris_check(&view, &header), 0);
    IS(header.version * 1000 + header.board * 100 + header.greater * 10 + header.lesser, 1133);
    IS(header.entries * 2 + 48, view.len);
    IS(morris_digest(&view), 0);
    bad.len = 15;
    IS(morris_check(&bad, &header), MORRIS_SHORT);
    IS(morris_digest(&bad), MORRIS_SHORT);
    bad.len = 0;
    IS(morris_check(&bad, &header), MORRIS_SHORT);
    IS(morris_lookup(1, &bad, 1, one->words, 0, own, other, &value), MORRIS_NO_TABLE);
    bad.len = view.len - 1;
    IS(morris_check(&bad, &header), MORRIS_SHORT);
    IS(morris_lookup(1, &bad, 1, one->words, 0, own, other, &value), MORRIS_SHORT);
    bad.len = view.len + 1;
    IS(morris_check(&bad, &header), MORRIS_TRAILING);
    IS(morris_lookup(1, &bad, 1, one->words, 0, own, other, &value), MORRIS_TRAILING);
    bad.len = view.len;
#define BROKEN(place, byte, status, looked)                                        \
    do {                                                                           \
        uint8_t was = copy[place];                                                 \
        copy[place] = (byte);                                                      \
        IS(morris_check(&bad, &header), status);                                   \
        IS(morris_lookup(1, &bad, 1, one->words, 0, own, other, &value), looked);  \
        copy[place] = was;                                                         \
    } while (0)
    BROKEN(0, 'M', MORRIS_MAGIC, MORRIS_MAGIC);
    BROKEN(4, 3, MORRIS_VERSION, MORRIS_VERSION);
    BROKEN(5, 0, MORRIS_ENTRIES, MORRIS_OTHER_BOARD);
    BROKEN(5, 9, MORRIS_OTHER_BOARD, MORRIS_OTHER_BOARD);
    BROKEN(6, 2, MORRIS_COUNTS, MORRIS_NO_TABLE);
    BROKEN(6, 9, MORRIS_CROWDED, MORRIS_NO_TABLE);
    BROKEN(15, 0, MORRIS_ENTRIES, MORRIS_ENTRIES);
    BROKEN(8, 1, MORRIS_ENTRIES, MORRIS_ENTRIES);
    copy[20] ^= 1;
    IS(morris_digest(&bad), MORRIS_DIGEST);
    IS(morris_check(&bad, &header), 0);
    free(copy);
}

/* Speed on the usual board. */
static void times(const morris_folder *t, const char *name) {
    uint32_t i, seed = 1, sum = 0;
    double start;
    const uint32_t calls = 300000;
    static uint32_t own[4096], other[4096];
    for (i = 0; i < 4096; i++) {
        own[i] = other[i] = 0;
        while (count_of(own[i]) < 3) {
            own[i] |= 1u << ((seed = seed * 1664525u + 1013904223u) >> 8) % 24;
        }
        while (count_of(other[i]) < 3) {
            uint32_t p = ((seed = seed * 1664525u + 1013904223u) >> 8) % 24;
            other[i] |= (1u << p) & ~own[i];
        }
    }
    start = now();
    for (i = 0; i < calls; i++) {
        morris_value value;
        IS(look(t, own[i % 4096], other[i % 4096], &value), 0);
        sum += value.depth;
    }
    printf("nine, %s: %.0f ns a value (%u)\n", name, 1e9 * (now() - start) / calls, sum);
}

int main(int argc, char **argv) {
    morris_folder one, two;
    double start;
    uint32_t *words;
    size_t count, more;
    if (argc != 3) {
        return 2;
    }
    IS(morris_open_folder("/nowhere", MORRIS_NINE, &one), MORRIS_NO_TABLE);
    morris_close_folder(&one);
    IS(morris_open_folder(argv[1], 9, &one), MORRIS_NO_BOARD);
    IS(morris_open_folder(argv[1], MORRIS_GRID, &one), 0);
    IS(morris_open_folder(argv[2], MORRIS_GRID, &two), 0);
    IS(one.n, two.n);
    IS(one.m, 0);
    all_of_grid(&one, &two);
    faults(&one, &two);
    morris_close_folder(&one);
    morris_close_folder(&two);
    start = now();
    count = morris_prepare_size(MORRIS_NINE);
    IS(count, MORRIS_NINE_WORDS);
    printf("nine: %zu words, counted in %.2f s", count, now() - start);
    words = malloc((count + 1) * sizeof *words);
    words[count] = 12345;
    start = now();
    IS(morris_prepare(MORRIS_NINE, words, count + 1), 0);
    printf(", prepared in %.2f s\n", now() - start);
    IS(words[count], 12345);
    IS(morris_prepare(MORRIS_NINE, words, count - 1), MORRIS_ROOM);
    free(words);
    IS(morris_open_folder(argv[1], MORRIS_NINE, &one), 0);
    IS(morris_open_folder(argv[2], MORRIS_NINE, &two), 0);
    times(&one, "version 1");
    times(&two, "version 2");
    for (more = 0; more < 2000; more++) {
        uint32_t own = 7u << more % 20, other = (uint32_t)(0x800813u * (more + 1)) & 0xffffff & ~own;
        morris_value a = {9, 9}, b = {9, 9};
        int32_t status = look(&one, own, other, &a);
        IS(look(&two, own, other, &b), status);
        IS(a.kind, b.kind);
        IS(a.depth, b.depth);
        if (status == 0) {
            bear_out(&two, own, other, b);
        }
    }
    morris_close_folder(&one);
    morris_close_folder(&two);
    return end();
}
