/* Open tables: tables FULL CLASSES. The folders have the same pairs in version 1 and in version 2.
 * What a handle answers is what the calls over views answer of the same files. */
#define _XOPEN_SOURCE 700
#include "check.h"
#include "morris_folder.h"

#include <errno.h>
#include <pthread.h>
#include <stdlib.h>
#include <string.h>
#include <sys/stat.h>
#include <unistd.h>

/* How many pages of memory may be there after all, that weren't after a tenth: a sanitizer keeps
 * what is given back for a while. */
#ifndef MOST_PAGES
#define MOST_PAGES 64
#endif
enum { THREADS = 8, SETS = 512, OPENED = 10000, CHANGED = 9 };

static morris_tables *open_grid(const char *path) {
    int32_t status = CHANGED;
    morris_tables *tables = morris_open(path, MORRIS_GRID, &status);
    IS(tables != NULL, status == MORRIS_OK);
    return tables;
}

static void is_same_list(const morris_move *a, const morris_move *b, size_t count) {
    size_t i;
    for (i = 0; i < count; i++) {
        IS(a[i].from << 16 | a[i].to << 8 | a[i].taken, b[i].from << 16 | b[i].to << 8 | b[i].taken);
        IS(a[i].value.kind << 16 | a[i].value.depth, b[i].value.kind << 16 | b[i].value.depth);
        IS(a[i].pad, 0);
    }
}

/* A handle and a folder answer alike for two masks, whatever they are, and with too little room. */
static void is_alike(const morris_tables *tables, const morris_folder *t, uint32_t own,
                     uint32_t other) {
    static morris_move here[MORRIS_MOST_MOVES], there[MORRIS_MOST_MOVES];
    morris_value a = {CHANGED, CHANGED}, b = {CHANGED, CHANGED};
    size_t count = CHANGED, wanted = CHANGED, room = MORRIS_MOST_MOVES;
    int32_t status = morris_lookup(t->board, t->files, t->n, t->words, t->m, own, other, &b);
    IS(morris_value_of(tables, own, other, &a), status);
    IS(a.kind << 16 | a.depth, b.kind << 16 | b.depth);
    status = morris_moves(t->board, t->files, t->n, t->words, t->m, own, other, there, room, &wanted);
    IS(morris_moves_of(tables, own, other, here, room, &count), status);
    IS(count, wanted);
    if (status == MORRIS_OK) {
        is_same_list(here, there, count);
        IS(morris_moves_of(tables, own, other, here, count, &count), MORRIS_OK);
        IS(count > 0 && morris_moves_of(tables, own, other, here, count - 1, &wanted) != MORRIS_ROOM, 0);
    }
}

static void are_alike_on_grid(const char *path) {
    morris_tables *tables = open_grid(path);
    morris_folder folder;
    uint32_t own, other;
    IS(morris_open_folder(path, MORRIS_GRID, &folder), MORRIS_OK);
    for (own = 0; own < SETS; own++) {
        for (other = 0; other < SETS; other++) {
            is_alike(tables, &folder, own, other);
        }
    }
    is_alike(tables, &folder, SETS, 7);
    is_alike(tables, &folder, 7, UINT32_MAX);
    morris_close_folder(&folder);
    morris_close(tables);
}

static uint32_t made_up(uint32_t *seed, int stones, uint32_t but) {
    uint32_t set = 0;
    while (stones > 0) {
        uint32_t point = 1u << ((*seed = *seed * 1664525u + 1013904223u) >> 8) % 24;
        stones -= ((set | but) & point) == 0;
        set |= but & point ? 0 : point;
    }
    return set;
}

static void are_alike_on_nine(const char *path) {
    int32_t status;
    morris_tables *tables = morris_open(path, MORRIS_NINE, &status);
    morris_folder folder;
    uint32_t seed = 1, i;
    IS(status, MORRIS_OK);
    IS(morris_open_folder(path, MORRIS_NINE, &folder), MORRIS_OK);
    for (i = 0; i < 2000; i++) {
        uint32_t own = made_up(&seed, 2 + (int)(i % 4), 0);
        is_alike(tables, &folder, own, made_up(&seed, 3 + (int)(i / 4 % 3), own));
    }
    morris_close_folder(&folder);
    morris_close(tables);
}

static void is_refused(const char *path, uint32_t board, int32_t wanted, int why) {
    int32_t status = CHANGED;
    errno = 0;
    IS(morris_open(path, board, &status) == NULL, 1);
    IS(status, wanted);
    if (wanted == MORRIS_SYSTEM) {
        IS(errno, why);
    }
    IS(morris_open(path, board, NULL) == NULL, 1);
}

static void refusals(const char *full) {
    static char long_path[5000];
    memset(long_path, 'x', sizeof long_path - 1);
    is_refused("/nowhere", MORRIS_NINE, MORRIS_NO_TABLE, 0);
    is_refused("/nowhere:/none", MORRIS_NINE, MORRIS_NO_TABLE, 0);
    is_refused("", MORRIS_NINE, MORRIS_SYSTEM, ENOENT);
    is_refused(":", MORRIS_GRID, MORRIS_SYSTEM, ENOENT);
    is_refused(long_path, MORRIS_NINE, MORRIS_SYSTEM, ENAMETOOLONG);
    is_refused(full, 2, MORRIS_NO_BOARD, 0);
    morris_close(NULL);
    IS(strcmp(morris_version(), MORRIS_VERSION_STRING), 0);
    IS(morris_interface(), MORRIS_INTERFACE);
}

/* ---- paths */

/* A folder of the room with links to files of other ones. */
static void make_folder(const char *name, const char *from, const char *const *pairs) {
    char target[4096], link[4096];
    IS(mkdir(name, 0700), 0);
    for (; *pairs != NULL; pairs++) {
        snprintf(target, sizeof target, "%s/grid-%s.nmmt", from, *pairs);
        snprintf(link, sizeof link, "%s/grid-%s.nmmt", name, *pairs);
        IS(symlink(target, link), 0);
    }
}

static void remove_folder(const char *name, const char *const *pairs) {
    char link[4096];
    for (; *pairs != NULL; pairs++) {
        snprintf(link, sizeof link, "%s/grid-%s.nmmt", name, *pairs);
        IS(remove(link), 0);
    }
    IS(remove(name), 0);
}

static void has(const char *path, const char *wanted) {
    morris_tables *tables = open_grid(path);
    uint32_t a, b;
    for (a = 0; a < 12; a++) {
        for (b = 0; b < 12; b++) {
            char pair[16];
            snprintf(pair, sizeof pair, "%u-%u", a > b ? a : b, a > b ? b : a);
            IS(morris_has(tables, a, b), strstr(wanted, pair) != NULL);
        }
    }
    IS(morris_has(tables, 3u << 30 | 3, UINT32_MAX), 0);
    morris_close(tables);
}

/* Several folders, of which the first that has a pair gives it. */
static void paths(const char *full, const char *classes) {
    static const char *const first[] = {"3-3", "5-3", NULL}, *const second[] = {"3-3", "4-3", NULL};
    const uint32_t own = 0x007, other = 0x038;
    char room[] = "/tmp/morris-tables-XXXXXX";
    morris_value value = {CHANGED, CHANGED};
    morris_tables *tables;
    FILE *damaged;
    IS(mkdtemp(room) != NULL && chdir(room) == 0, 1);
    make_folder("a", full, first);
    make_folder("b", classes, second);
    make_folder("b:a", classes, second + 1);
    has("a", "3-3 5-3");
    has("a:b", "3-3 5-3 4-3");
    has("./a:./b", "3-3 5-3 4-3");
    has("nowhere:a:none", "3-3 5-3");
    has("b:a", "4-3"); /* it is there */
    is_refused("a::b", MORRIS_GRID, MORRIS_SYSTEM, ENOENT);
    /* A file in the first folder that is none hides what is in the second. */
    IS(remove("a/grid-3-3.nmmt"), 0);
    damaged = fopen("a/grid-3-3.nmmt", "wb");
    IS(damaged != NULL && fputs("NMMT\1\1\3\3 not a table", damaged) >= 0 && fclose(damaged) == 0, 1);
    tables = open_grid("b:./a");
    IS(morris_value_of(tables, own, other, &value), MORRIS_OK);
    IS(morris_check_tables(tables), MORRIS_ENTRIES);
    morris_close(tables);
    tables = open_grid("./a:b");
    IS(morris_value_of(tables, own, other, &value), MORRIS_ENTRIES);
    morris_close(tables);
    tables = open_grid(classes);
    IS(morris_check_tables(tables), MORRIS_OK);
    morris_close(tables);
    remove_folder("a", first);
    remove_folder("b", second);
    remove_folder("b:a", second + 1);
    IS(chdir("/") + remove(room), 0);
}

/* ---- choosing */

/* How good a value is for the player to move: sooner wins and later losses are better. */
static int score(morris_value v) {
    return v.kind == MORRIS_DRAW ? 0 : v.kind == MORRIS_WON ? 100000 - v.depth : v.depth - 100000;
}

static size_t replies(const morris_tables *tables, uint32_t own, uint32_t other, const morris_move *m) {
    static morris_move moves[MORRIS_MOST_MOVES];
    uint32_t next_own, next_other;
    size_t count, found = 0, i;
    IS(morris_play(MORRIS_GRID, own, other, m, &next_own, &next_other), MORRIS_OK);
    IS(morris_moves_of(tables, next_own, next_other, moves, MORRIS_MOST_MOVES, &count), MORRIS_OK);
    for (i = 0; i < count; i++) {
        found += moves[i].value.kind == MORRIS_DRAW;
    }
    return found;
}

/* No move is better than the one that was chosen, and none before it as good: at a draw of those
 * after which the opponent has as few moves that keep it. */
static void is_best(const morris_tables *tables, uint32_t own, uint32_t other, const morris_move *best) {
    static morris_move moves[MORRIS_MOST_MOVES];
    size_t count, i, least = best->value.kind == MORRIS_DRAW ? replies(tables, own, other, best) : 0;
    int is_before = 1;
    IS(morris_moves_of(tables, own, other, moves, MORRIS_MOST_MOVES, &count), MORRIS_OK);
    for (i = 0; i < count; i++) {
        int better = score(best->value) - score(moves[i].value);
        is_before = is_before && memcmp(best, &moves[i], sizeof *best) != 0;
        if (better == 0 && best->value.kind == MORRIS_DRAW) {
            better = (int)replies(tables, own, other, &moves[i]) - (int)least;
        }
        IS(better < 0 || (better == 0 && is_before), 0);
    }
    IS(is_before, 0);
}

static void choices(const char *path) {
    morris_tables *tables = open_grid(path);
    uint32_t own, other;
    for (own = 0; own < SETS; own++) {
        for (other = 0; other < SETS; other++) {
            morris_value value = {CHANGED, CHANGED};
            morris_move best = {CHANGED, CHANGED, CHANGED, CHANGED, {CHANGED, CHANGED}};
            int32_t status = morris_value_of(tables, own, other, &value);
            int is_over = status == MORRIS_OK && value.kind == MORRIS_LOST && value.depth == 0;
            IS(morris_best(tables, own, other, &best), is_over ? MORRIS_OVER : status);
            IS(best.pad == CHANGED, status != MORRIS_OK || is_over);
            if (status == MORRIS_OK && !is_over) {
                IS(score(best.value), score(value));
                is_best(tables, own, other, &best);
            }
        }
    }
    morris_close(tables);
}

/* Files that say what doesn't follow from one another. */
static void disagreement(const char *full) {
    static const char *const pairs[] = {"3-3", NULL};
    char room[] = "/tmp/morris-tables-XXXXXX", name[4096];
    static uint8_t bytes[1 << 16];
    morris_move best;
    morris_tables *tables;
    FILE *file;
    size_t length, i;
    snprintf(name, sizeof name, "%s/grid-3-3.nmmt", full);
    file = fopen(name, "rb");
    length = file == NULL ? 0 : fread(bytes, 1, sizeof bytes, file);
    IS(file != NULL && length > 48 && fclose(file) == 0, 1);
    for (i = 16; i < length - 32; i += 2) { /* all are lost in 4 */
        bytes[i] = 0;
        bytes[i + 1] = 5;
    }
    IS(mkdtemp(room) != NULL && chdir(room) == 0, 1);
    IS(mkdir("it", 0700), 0);
    file = fopen("it/grid-3-3.nmmt", "wb");
    IS(file != NULL && fwrite(bytes, 1, length, file) == length && fclose(file) == 0, 1);
    tables = open_grid("it");
    IS(morris_best(tables, 0x007, 0x038, &best), MORRIS_DISAGREE);
    IS(morris_check_tables(tables), MORRIS_DIGEST);
    morris_close(tables);
    remove_folder("it", pairs);
    IS(chdir("/") + remove(room), 0);
}

/* ---- threads and what is given back */

struct task {
    const morris_tables *tables;
    uint64_t sum;
};

static void *ask_all(void *given) {
    struct task *task = given;
    morris_move moves[200];
    uint32_t own, other;
    for (own = 0; own < SETS; own++) {
        for (other = 0; other < SETS; other++) {
            morris_value value = {0, 0};
            morris_move best = {0, 0, 0, 0, {0, 0}};
            size_t count = 0, i;
            int32_t status = morris_value_of(task->tables, own, other, &value);
            task->sum = 31 * task->sum + (uint64_t)status + value.kind + value.depth;
            status = morris_moves_of(task->tables, own, other, moves, 200, &count);
            task->sum = 31 * task->sum + (uint64_t)status + count;
            for (i = 0; i < count; i++) {
                task->sum = 31 * task->sum + moves[i].to + moves[i].value.kind + moves[i].value.depth;
            }
            if (own % 8 == 7) {
                task->sum = 31 * task->sum + (uint64_t)morris_best(task->tables, own, other, &best);
                task->sum = 31 * task->sum + best.to;
            }
        }
    }
    return NULL;
}

/* Many threads ask one handle. */
static void many_threads(const char *path) {
    morris_tables *tables = open_grid(path);
    pthread_t threads[THREADS];
    struct task tasks[THREADS], alone = {tables, 0};
    int i;
    ask_all(&alone);
    for (i = 0; i < THREADS; i++) {
        tasks[i].tables = tables;
        tasks[i].sum = 0;
        IS(pthread_create(&threads[i], NULL, ask_all, &tasks[i]), 0);
    }
    for (i = 0; i < THREADS; i++) {
        IS(pthread_join(threads[i], NULL), 0);
        IS(tasks[i].sum == alone.sum, 1);
    }
    morris_close(tables);
}

/* How many places of memory are mapped, and how many pages of it are there. */
static void used(int *maps, long *pages) {
    FILE *file = fopen("/proc/self/maps", "r");
    int byte;
    *maps = 0;
    *pages = 0;
    while (file != NULL && (byte = fgetc(file)) != EOF) {
        *maps += byte == '\n';
    }
    IS(file != NULL && fclose(file) == 0, 1);
    file = fopen("/proc/self/statm", "r");
    IS(file != NULL && fscanf(file, "%*d %ld", pages) == 1 && fclose(file) == 0, 1);
}

/* Tables are opened and closed many times over, and refused, and nothing is left. */
static void many_times(const char *full, const char *classes) {
    int maps = 0, maps_then, file = dup(0), i;
    long pages = 0, pages_then;
    char path[8192], none[8192];
    snprintf(path, sizeof path, "%s:%s:/nowhere", full, classes);
    snprintf(none, sizeof none, "%s:", classes);
    close(file);
    for (i = 0; i < OPENED; i++) {
        if (i == OPENED / 10) {
            used(&maps, &pages);
        }
        morris_close(open_grid(i % 3 == 0 ? path : i % 3 == 1 ? full : classes));
        IS(morris_open(i % 2 == 0 ? none : "/nowhere", MORRIS_GRID, NULL) == NULL, 1);
    }
    used(&maps_then, &pages_then);
    IS(maps_then, maps);
    IS(pages_then - pages < MOST_PAGES, 1);
    IS(dup(0), file);
    close(file);
}

int main(int argc, char **argv) {
    char *full = argc == 3 ? realpath(argv[1], NULL) : NULL;
    char *classes = argc == 3 ? realpath(argv[2], NULL) : NULL;
    int i;
    if (full == NULL || classes == NULL) {
        return 2;
    }
    refusals(full);
    for (i = 0; i < 2; i++) {
        are_alike_on_grid(i == 0 ? full : classes);
        are_alike_on_nine(i == 0 ? full : classes);
        choices(i == 0 ? full : classes);
        many_threads(i == 0 ? full : classes);
    }
    paths(full, classes);
    disagreement(full);
    many_times(full, classes);
    free(full);
    free(classes);
    return end();
}
