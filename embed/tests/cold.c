/* What is read of a file that isn't in memory: cold FOLDER, which has the table of Nine 4-3 by
 * positions. A few values are looked up in a copy that the system was made to forget. */
#define _DEFAULT_SOURCE
#include "check.h"
#include "morris_folder.h"

#include <fcntl.h>
#include <stdlib.h>
#include <string.h>
#include <sys/mman.h>
#include <sys/stat.h>
#include <unistd.h>

/* How many values are looked up, and how many bytes may be read for one on average. Where a fault
 * reads around its page, it is 128 KB and more. */
enum { VALUES = 64, MOST_BYTES = 32 << 10, ADVICES = 8 };
#define NAME "nine-4-3.nmmt"

/* Stands before the C library's: notes what is advised, and advises it. */
static int advised[ADVICES];
static size_t advices = 0;

int posix_madvise(void *at, size_t len, int advice) {
    if (advices < ADVICES) {
        advised[advices] = advice;
    }
    advices++;
    return madvise(at, len, advice) == 0 ? 0 : -1;
}

static void is_advised(size_t count, const int *wanted) {
    size_t i;
    IS(advices, count);
    for (i = 0; i < count && i < ADVICES; i++) {
        IS(advised[i], wanted[i]);
    }
    advices = 0;
}

/* Copies a file here, and has its bytes written out. */
static void copy(const char *folder) {
    char from[4096];
    static char bytes[1 << 20];
    int in, out = open(NAME, O_WRONLY | O_CREAT | O_EXCL, 0600);
    ssize_t got;
    snprintf(from, sizeof from, "%s/" NAME, folder);
    in = open(from, O_RDONLY);
    while ((got = read(in, bytes, sizeof bytes)) > 0) {
        IS(write(out, bytes, (size_t)got), got);
    }
    IS(got + fsync(out) + close(out) + close(in), 0);
}

/* How many bytes of the copy are in memory. */
static size_t in_memory(void) {
    size_t page = (size_t)sysconf(_SC_PAGESIZE), found = 0, pages, i;
    int file = open(NAME, O_RDONLY);
    struct stat about;
    unsigned char *is_there;
    void *at;
    if (file < 0 || fstat(file, &about) != 0) {
        exit(2);
    }
    pages = ((size_t)about.st_size + page - 1) / page;
    at = mmap(NULL, (size_t)about.st_size, PROT_READ, MAP_SHARED, file, 0);
    is_there = calloc(pages, 1);
    if (at == MAP_FAILED || is_there == NULL || mincore(at, (size_t)about.st_size, is_there) != 0) {
        exit(2);
    }
    for (i = 0; i < pages; i++) {
        found += (is_there[i] & 1) * page;
    }
    free(is_there);
    munmap(at, (size_t)about.st_size);
    close(file);
    return found;
}

/* Has the system forget the copy: whether it did. */
static int is_forgotten(void) {
    int file = open(NAME, O_RDONLY), done = posix_fadvise(file, 0, 0, POSIX_FADV_DONTNEED) == 0;
    close(file);
    return done && in_memory() == 0;
}

/* Values of positions of four stones and three, whose entries are far from one another. */
static void look_up(const morris_tables *tables) {
    uint32_t seed = 1, i;
    for (i = 0; i < VALUES; i++) {
        uint32_t masks[2] = {0, 0}, stones;
        morris_value value;
        for (stones = 0; stones < 7;) {
            uint32_t point = 1u << ((seed = seed * 1664525u + 1013904223u) >> 8) % 24;
            if (((masks[0] | masks[1]) & point) == 0) {
                masks[stones++ / 4] |= point;
            }
        }
        IS(morris_value_of(tables, masks[0], masks[1], &value), MORRIS_OK);
    }
}

static void reads_little(void) {
    morris_tables *tables;
    if (!is_forgotten()) {
        printf("left out: what is read of cold files, since this file system forgets none\n");
        return;
    }
    tables = morris_open(".", MORRIS_NINE, NULL);
    look_up(tables);
    morris_close(tables);
    printf("%zu bytes read for %d values\n", in_memory(), VALUES);
    IS(in_memory() <= VALUES * MOST_BYTES, 1);
}

/* Look-ups go here and there, and checking goes from end to end. */
static void advises(void) {
    static const int random[] = {POSIX_MADV_RANDOM};
    static const int in_order[] = {POSIX_MADV_SEQUENTIAL, POSIX_MADV_RANDOM};
    morris_tables *tables = morris_open(".", MORRIS_NINE, NULL);
    morris_folder folder;
    is_advised(1, random);
    look_up(tables);
    is_advised(0, random);
    IS(morris_check_tables(tables), MORRIS_OK);
    is_advised(2, in_order);
    morris_close(tables);
    IS(morris_open_folder(".", MORRIS_NINE, &folder), MORRIS_OK);
    is_advised(1, random);
    morris_close_folder(&folder);
}

int main(int argc, char **argv) {
    const char *room = getenv("TMPDIR");
    char place[4096], *folder = argc == 2 ? realpath(argv[1], NULL) : NULL;
    snprintf(place, sizeof place, "%s/morris-cold-XXXXXX", room != NULL ? room : "/tmp");
    if (folder == NULL || mkdtemp(place) == NULL || chdir(place) != 0) {
        return 2;
    }
    copy(folder);
    reads_little();
    advices = 0;
    advises();
    IS(remove(NAME) + chdir("/") + remove(place), 0);
    free(folder);
    return end();
}
