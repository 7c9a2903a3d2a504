/* Prints how many nanoseconds a value and a list of moves take through the library of embed/:
 *
 *     library FOLDER < POSITIONS      of the usual board, over views and then by a handle
 *     library FOLDER first < LINE     how many milliseconds the first value and its moves take
 *     library FOLDER calls < POSITIONS    how many milliseconds of a processor the other calls take
 *     library FOLDER cold < POSITIONS     how many milliseconds by the clock opening takes, and a
 *                                         best move on average
 *
 * No part of the product.
 */
#define _POSIX_C_SOURCE 199309L
#include "morris_folder.h"

#include <stdio.h>
#include <string.h>
#include <time.h>

static uint32_t own[1 << 20], other[1 << 20];
static morris_move moves[MORRIS_MOST_MOVES];

static double now(void) {
    struct timespec t;
    clock_gettime(CLOCK_MONOTONIC, &t);
    return (double)t.tv_sec + 1e-9 * (double)t.tv_nsec;
}

static int read_all(void) {
    char line[64];
    int count = 0;
    while (count < 1 << 20 && fgets(line, sizeof line, stdin) != NULL) {
        int p;
        for (p = 0; p < 24 && line[p] != '\0'; p++) {
            own[count] |= (uint32_t)(line[p] == 'X') << p;
            other[count] |= (uint32_t)(line[p] == 'O') << p;
        }
        count++;
    }
    return count;
}

/* The seconds of a pass over all positions: values, or lists of moves. */
static double pass(const morris_folder *t, int count, int with_moves, unsigned long long *sum) {
    double began = now();
    int i;
    for (i = 0; i < count; i++) {
        morris_value value = {0, 0};
        size_t many = 0;
        int32_t status = with_moves
            ? morris_moves(t->board, t->files, t->n, t->words, t->m, own[i], other[i], moves, MORRIS_MOST_MOVES, &many)
            : morris_lookup(t->board, t->files, t->n, t->words, t->m, own[i], other[i], &value);
        *sum += (unsigned long long)status + value.depth + (value.kind == MORRIS_DRAW ? 0 : 1) + many;
    }
    return now() - began;
}

/* The same by a handle. */
static double pass_by_handle(const morris_tables *t, int count, int with_moves, unsigned long long *sum) {
    double began = now();
    int i;
    for (i = 0; i < count; i++) {
        morris_value value = {0, 0};
        size_t many = 0;
        int32_t status = with_moves
            ? morris_moves_of(t, own[i], other[i], moves, MORRIS_MOST_MOVES, &many)
            : morris_value_of(t, own[i], other[i], &value);
        *sum += (unsigned long long)status + value.depth + (value.kind == MORRIS_DRAW ? 0 : 1) + many;
    }
    return now() - began;
}

static double lesser(double a, double b) {
    return a < b ? a : b;
}

/* The seconds of this processor so far, in which other work on the machine counts for little. */
static double used(void) {
    struct timespec t;
    clock_gettime(CLOCK_PROCESS_CPUTIME_ID, &t);
    return (double)t.tv_sec + 1e-9 * (double)t.tv_nsec;
}

static void print_least(const char *what, double least) {
    printf("  %-40s %10.4f ms\n", what, 1e3 * least);
}

/* The seconds of a best move: of one position the least of so many times. */
static double time_best(const morris_tables *t, int i, int times) {
    double least = 1e9;
    while (times-- > 0) {
        morris_move best;
        double began = used();
        morris_best(t, own[i], other[i], &best);
        least = lesser(least, used() - began);
    }
    return least;
}

/* The best moves of positions: drawn ones with three own stones, and all others. */
static void time_bests(const morris_tables *t, int count) {
    double sums[2] = {0, 0}, most[2] = {0, 0};
    int many[2] = {0, 0}, i, k;
    for (i = 0; i < count; i++) {
        morris_value value;
        double took;
        if (morris_value_of(t, own[i], other[i], &value) != MORRIS_OK) {
            continue;
        }
        k = value.kind != MORRIS_DRAW || __builtin_popcount(own[i]) > 3;
        took = time_best(t, i, 3);
        sums[k] += took;
        many[k]++;
        most[k] = took > most[k] ? took : most[k];
    }
    for (k = 0; k < 2; k++) {
        if (many[k] > 0) {
            print_least(k ? "morris_best, other positions" : "morris_best, drawn with three stones", sums[k] / many[k]);
            print_least("  the longest of these", most[k]);
        }
    }
}

/* The calls that a program makes seldom: the least of five times each. */
static int time_calls(const char *folder, int count) {
    static uint32_t words[MORRIS_NINE_WORDS];
    double least[4] = {1e9, 1e9, 1e9, 1e9}, began;
    morris_folder t;
    morris_tables *tables = NULL;
    size_t longest = 0, k;
    int i;
    if (morris_open_folder(folder, MORRIS_NINE, &t) != MORRIS_OK) {
        return 1;
    }
    for (k = 0; k < t.n; k++) {
        longest = t.files[k].len > t.files[longest].len ? k : longest;
    }
    for (i = 0; i < 5; i++) {
        morris_header header;
        began = used();
        morris_prepare(MORRIS_NINE, words, MORRIS_NINE_WORDS);
        least[0] = lesser(least[0], used() - began);
        began = used();
        morris_check(&t.files[longest], &header);
        least[1] = lesser(least[1], used() - began);
        began = used();
        morris_digest(&t.files[longest]);
        least[2] = lesser(least[2], used() - began);
        morris_close(tables);
        began = used();
        tables = morris_open(folder, MORRIS_NINE, NULL);
        least[3] = lesser(least[3], used() - began);
    }
    print_least("morris_prepare", least[0]);
    print_least("morris_check, the longest file", least[1]);
    printf("  %-40s %10.0f MB/s\n", "morris_digest", 1e-6 * (double)t.files[longest].len / least[2]);
    print_least("morris_open", least[3]);
    time_bests(tables, count);
    morris_close(tables);
    return 0;
}

/* Each position once, in files that may not be in memory. */
static int time_cold(const char *folder, int count) {
    double began = now(), opened;
    morris_tables *tables = morris_open(folder, MORRIS_NINE, NULL);
    int i;
    opened = now();
    for (i = 0; tables != NULL && i < count; i++) {
        morris_best(tables, own[i], other[i], moves);
    }
    printf("%.3f %.4f\n", 1e3 * (opened - began), 1e3 * (now() - opened) / count);
    morris_close(tables);
    return tables == NULL;
}

/* The first value and its moves, from the opening on. */
static int time_first(const char *folder) {
    unsigned long long sum = 0;
    double began = now();
    morris_folder t;
    if (morris_open_folder(folder, MORRIS_NINE, &t) != MORRIS_OK) {
        return 1;
    }
    pass(&t, 1, 0, &sum);
    pass(&t, 1, 1, &sum);
    printf("%.2f\n", 1e3 * (now() - began));
    return 0;
}

/* Values and lists of moves, over views and by a handle. */
static int time_all(const char *folder, int count) {
    unsigned long long values = 0, lists = 0;
    double least[4] = {1e9, 1e9, 1e9, 1e9};
    morris_tables *tables = morris_open(folder, MORRIS_NINE, NULL);
    morris_folder t;
    int i;
    if (tables == NULL || morris_open_folder(folder, MORRIS_NINE, &t) != MORRIS_OK) {
        return 1;
    }
    for (i = 0; i < 5; i++) {
        least[0] = lesser(least[0], pass(&t, count, 0, &values));
        least[1] = lesser(least[1], pass_by_handle(tables, count, 0, &values));
    }
    least[2] = pass(&t, count, 1, &lists);
    least[3] = pass_by_handle(tables, count, 1, &lists);
    for (i = 0; i < 4; i++) {
        printf("%.1f ", 1e9 * least[i] / count);
    }
    printf("%llu %llu\n", values, lists);
    morris_close(tables);
    return 0;
}

int main(int argc, char **argv) {
    const char *task = argc == 3 ? argv[2] : "";
    int count = read_all();
    if (argc < 2 || count == 0) {
        return 2;
    }
    if (strcmp(task, "calls") == 0) {
        return time_calls(argv[1], count);
    }
    if (strcmp(task, "cold") == 0) {
        return time_cold(argv[1], count);
    }
    return strcmp(task, "first") == 0 ? time_first(argv[1]) : time_all(argv[1], count);
}
