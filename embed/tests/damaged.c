/* Calls over files that are cut short or that lie, and calls of many threads at once: damaged FILE1
 * FILE2, the files of Grid 3-3 of version 1 and 2. What is handed in ends where a page begins that
 * nobody may read, so a call that reads past its end is killed. */
#define _GNU_SOURCE
#include "check.h"
#include "morris_folder.h"

#include <pthread.h>
#include <stdio.h>
#include <stdlib.h>
#include <string.h>
#include <sys/mman.h>
#include <unistd.h>

enum { HEADER = 16, DIGEST = 32, THREADS = 8, MOST = 1 << 20 };

/* Room whose end nobody may read past. */
static uint8_t *room_end(void) {
    size_t page = (size_t)sysconf(_SC_PAGESIZE);
    uint8_t *room = mmap(NULL, MOST + page, PROT_READ | PROT_WRITE, MAP_PRIVATE | MAP_ANONYMOUS, -1, 0);
    if (room == MAP_FAILED || mprotect(room + MOST, page, PROT_NONE) != 0) {
        exit(3);
    }
    return room + MOST;
}

static morris_view read_file(const char *name) {
    static uint8_t bytes[2][MOST];
    static int at = 0;
    FILE *file = fopen(name, "rb");
    morris_view view = {bytes[at], 0};
    if (file == NULL) {
        exit(2);
    }
    view.len = fread(bytes[at++], 1, MOST, file);
    fclose(file);
    return view;
}

/* The first bytes of a file, at the end of the room. */
static morris_view cut(uint8_t *end, const morris_view *file, size_t len) {
    morris_view view = {end - len, len};
    memcpy(end - len, file->bytes, len);
    return view;
}

static const uint32_t OWN = 0x007, OTHER = 0x038;

static int32_t look(const morris_view *view, const uint32_t *words, size_t m) {
    morris_value value = {9, 9};
    int32_t status = morris_lookup(MORRIS_GRID, view, 1, words, m, OWN, OTHER, &value);
    IS(value.kind == 9, status != MORRIS_OK);
    return status;
}

/* All calls over the first bytes of a file. */
static void cut_files(const morris_view *file, const uint32_t *words, size_t m) {
    static morris_move moves[MORRIS_MOST_MOVES];
    uint8_t *end = room_end();
    size_t len, count = 7;
    for (len = 0; len <= file->len; len = len < 60 ? len + 1 : len < file->len - 60 ? file->len - 60 : len + 1) {
        morris_view view = cut(end, file, len);
        morris_header header = {7, 7, 7, 7, 7, 7};
        int whole = len == file->len, named = len >= HEADER;
        IS(morris_check(&view, &header), whole ? MORRIS_OK : MORRIS_SHORT);
        IS(header.version == 7, !whole);
        IS(morris_digest(&view), whole ? MORRIS_OK : len < DIGEST ? MORRIS_SHORT : MORRIS_DIGEST);
        IS(look(&view, words, m), whole ? MORRIS_OK : named ? MORRIS_SHORT : MORRIS_NO_TABLE);
        IS(morris_moves(MORRIS_GRID, &view, 1, words, m, OWN, OTHER, moves, MORRIS_MOST_MOVES, &count),
           whole ? MORRIS_OK : named ? MORRIS_SHORT : MORRIS_NO_TABLE);
        IS(count == 7, !whole);
    }
}

/* What a header with these numbers of stones is refused for. */
static int32_t refusal(unsigned greater, unsigned lesser) {
    if (greater < lesser || greater > 9 || lesser < 3) {
        return MORRIS_COUNTS;
    }
    return greater + lesser > 9 ? MORRIS_CROWDED : greater == 3 && lesser == 3 ? MORRIS_OK : MORRIS_ENTRIES;
}

/* Headers with other counts than the file's. */
static void lying_counts(const morris_view *file, const uint32_t *words, size_t m) {
    static const uint64_t entries[] = {0, 1, 1u << 31, 1ull << 55, 1ull << 62, 1ull << 63, ~0ull, ~0ull - 15};
    morris_view view = cut(room_end(), file, file->len);
    uint8_t *bytes = (uint8_t *)(uintptr_t)view.bytes;
    unsigned greater, lesser, i, k;
    morris_header header;
    for (greater = 0; greater < 256; greater++) {
        for (lesser = 0; lesser < 256; lesser++) {
            bytes[6] = (uint8_t)greater;
            bytes[7] = (uint8_t)lesser;
            IS(morris_check(&view, &header), refusal(greater, lesser));
            IS(look(&view, words, m), greater == 3 && lesser == 3 ? MORRIS_OK : MORRIS_NO_TABLE);
        }
    }
    bytes[6] = bytes[7] = 3;
    for (i = 0; i < sizeof entries / sizeof *entries; i++) {
        for (k = 0; k < 8; k++) {
            bytes[8 + k] = (uint8_t)(entries[i] >> (56 - 8 * k));
        }
        IS(morris_check(&view, &header), MORRIS_ENTRIES);
        IS(look(&view, words, m), MORRIS_ENTRIES);
    }
}

/* Words that lie: any answer is right, as long as nothing is read past their end. */
static void lying_words(const morris_view *file, const uint32_t *words, size_t m) {
    uint32_t *end = (uint32_t *)(void *)room_end();
    uint32_t seed = 1, i;
    size_t len;
    for (len = 0; len <= m; len++) {
        uint32_t *copy = end - len;
        memcpy(copy, words, len * sizeof *words);
        IS(look(file, copy, len), len == m ? MORRIS_OK : MORRIS_NOT_PREPARED);
        for (i = 0; i < 50 && len > 13; i++) {
            seed = seed * 1664525u + 1013904223u;
            copy[1 + (seed >> 4) % 12] = (seed >> 8) % 4 ? (seed >> 8) % 600 : seed;
            copy[13 + (seed >> 12) % (len - 13)] = seed;
            copy[12] = (uint32_t)len;
            (void)look(file, copy, len);
        }
    }
}

struct task {
    const morris_view *file;
    const uint32_t *words;
    size_t m;
    uint64_t sum;
};

/* All positions of Grid 3-3, and their moves' values. */
static void *ask_all(void *given) {
    struct task *task = given;
    morris_move moves[200];
    uint32_t own, other;
    for (own = 0; own < 512; own++) {
        for (other = 0; other < 512; other++) {
            morris_value value = {0, 0};
            size_t count = 0, i;
            int32_t status = morris_lookup(MORRIS_GRID, task->file, 1, task->words, task->m, own, other, &value);
            task->sum = 31 * task->sum + (uint64_t)status + value.kind + value.depth;
            status = morris_moves(MORRIS_GRID, task->file, 1, task->words, task->m, own, other, moves, 200, &count);
            task->sum = 31 * task->sum + (uint64_t)status;
            for (i = 0; i < count; i++) {
                task->sum = 31 * task->sum + moves[i].to + moves[i].value.kind + moves[i].value.depth;
            }
        }
    }
    return NULL;
}

static void many_threads(const morris_view *files, const uint32_t *words, size_t m) {
    pthread_t threads[THREADS];
    struct task tasks[THREADS];
    int i;
    for (i = 0; i < THREADS; i++) {
        struct task task = {&files[i % 2], words, m, 0};
        tasks[i] = task;
        IS(pthread_create(&threads[i], NULL, ask_all, &tasks[i]), 0);
    }
    for (i = 0; i < THREADS; i++) {
        IS(pthread_join(threads[i], NULL), 0);
        IS(tasks[i].sum == tasks[0].sum, 1);
    }
}

int main(int argc, char **argv) {
    uint32_t words[1000];
    size_t m = morris_prepare_size(MORRIS_GRID), i;
    morris_view files[2];
    if (argc != 3 || m > sizeof words / sizeof *words || morris_prepare(MORRIS_GRID, words, m) != MORRIS_OK) {
        return 2;
    }
    for (i = 0; i < 2; i++) {
        files[i] = read_file(argv[1 + i]);
        cut_files(&files[i], words, m);
        lying_counts(&files[i], words, m);
    }
    lying_words(&files[1], words, m);
    many_threads(files, words, m);
    return end();
}
