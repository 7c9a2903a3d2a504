/* Files that are missing, damaged or refused, and what calls say of them: faults FULL, the folder
 * with the tables of Grid by positions. It is C and C++ alike. */
#ifndef _XOPEN_SOURCE
#define _XOPEN_SOURCE 700
#endif
#include "check.h"
#include "morris.h"

#include <errno.h>
#include <pthread.h>
#include <stdlib.h>
#include <string.h>
#include <sys/stat.h>
#include <unistd.h>

/* Where a header has what. Positions of 3-3, of 4-3 and of 4-4: XX.OOXOXO, whose moves are 1-2 and
 * then captures by 5-2, which lead to 4-3. */
enum { MAGIC = 0, AT_VERSION = 4, BOARD = 5, GREATER = 6, LESSER = 7, LAST_OF_ENTRIES = 15 };
enum { MOST = 1 << 16, CHANGED = 9 };
static const uint32_t THREE[2] = {0x007, 0x038}, FOUR[2] = {0x00f, 0x1c0};
static const uint32_t CAPTURES[2] = {0x0a3, 0x158};

static uint8_t bytes[MOST];
static size_t len;
static char full[4096], name[4200];

static void read_table(const char *pair) {
    FILE *file;
    snprintf(name, sizeof name, "%s/grid-%s.nmmt", full, pair);
    file = fopen(name, "rb");
    len = file == NULL ? 0 : fread(bytes, 1, sizeof bytes, file);
    IS(file != NULL && len > 48 && len < MOST && fclose(file) == 0, 1);
}

static void write_table(const char *pair) {
    FILE *file;
    snprintf(name, sizeof name, "it/grid-%s.nmmt", pair);
    file = fopen(name, "wb");
    IS(file != NULL && fwrite(bytes, 1, len, file) == len && fclose(file) == 0, 1);
}

static void copy_table(const char *pair) {
    read_table(pair);
    write_table(pair);
}

static void remove_table(const char *pair) {
    snprintf(name, sizeof name, "it/grid-%s.nmmt", pair);
    IS(remove(name), 0);
}

static morris_tables *open_it(const char *path) {
    int32_t status = CHANGED;
    morris_tables *tables = morris_open(path, MORRIS_GRID, &status);
    IS(tables != NULL, status == MORRIS_OK);
    return tables;
}

/* The last fault of this thread is this one. */
#define TOLD(status_, system_, pair_, path_, text_)                                   \
    do {                                                                              \
        const morris_fault *fault = morris_last_fault();                              \
        const char *wanted = path_;                                                   \
        IS(fault->status, status_);                                                   \
        IS(fault->system, system_);                                                   \
        IS(fault->greater * 10 + fault->lesser, pair_);                               \
        IS(fault->path == NULL, wanted == NULL);                                      \
        IS(wanted != NULL && fault->path != NULL && strcmp(fault->path, wanted), 0);  \
        IS(strcmp(fault->text, text_), 0);                                            \
    } while (0)

static int32_t value_of(const morris_tables *tables, const uint32_t *masks) {
    morris_value value = {CHANGED, CHANGED};
    int32_t status = morris_value_of(tables, masks[0], masks[1], &value);
    IS(value.kind == CHANGED, status != MORRIS_OK);
    return status;
}

static int32_t moves_of(const morris_tables *tables, const uint32_t *masks) {
    static morris_move moves[MORRIS_MOST_MOVES];
    size_t count = CHANGED;
    int32_t status = morris_moves_of(tables, masks[0], masks[1], moves, MORRIS_MOST_MOVES, &count);
    IS(count == CHANGED, status != MORRIS_OK);
    return status;
}

static int32_t best(const morris_tables *tables, const uint32_t *masks) {
    morris_move move;
    return morris_best(tables, masks[0], masks[1], &move);
}

/* What has the name of 3-3 isn't its table: all calls that need it say so, and others answer. */
static void is_refused(int32_t status, int why, const char *text) {
    morris_tables *tables;
    copy_table("4-3");
    tables = open_it("./it");
    IS(morris_has(tables, 3, 3), 1);
    IS(value_of(tables, THREE), status);
    TOLD(status, why, 33, "./it/grid-3-3.nmmt", text);
    IS(moves_of(tables, THREE), status);
    TOLD(status, why, 33, "./it/grid-3-3.nmmt", text);
    IS(best(tables, THREE), status);
    TOLD(status, why, 33, "./it/grid-3-3.nmmt", text);
    IS(value_of(tables, FOUR), MORRIS_OK);
    errno = 0;
    IS(morris_check_tables(tables), status);
    IS(errno, why);
    TOLD(status, why, 33, "./it/grid-3-3.nmmt", text);
    morris_close(tables);
    remove_table("4-3");
}

static void is_damaged(size_t length, int32_t status, const char *why) {
    char text[256];
    len = length;
    write_table("3-3");
    snprintf(text, sizeof text, "./it/grid-3-3.nmmt: %s", why);
    is_refused(status, 0, text);
    remove_table("3-3");
    read_table("3-3");
}

static void damaged_headers(void) {
    size_t length;
    read_table("3-3");
    for (length = 0; length <= 16; length++) {
        is_damaged(length, MORRIS_SHORT, "file is too short");
    }
    length = len;
    is_damaged(length - 1, MORRIS_SHORT, "file is too short");
    is_damaged(length + 1, MORRIS_TRAILING, "bytes after the table");
    bytes[MAGIC] = 'M';
    is_damaged(length, MORRIS_MAGIC, "not a table file");
    memset(bytes, 0, length);
    is_damaged(length, MORRIS_MAGIC, "not a table file");
    bytes[AT_VERSION] = 3;
    is_damaged(length, MORRIS_VERSION, "unknown version");
    bytes[BOARD] = MORRIS_NINE;
    is_damaged(length, MORRIS_OTHER_BOARD, "another board");
    bytes[GREATER] = 3, bytes[LESSER] = 4;
    is_damaged(length, MORRIS_COUNTS, "bad counts");
    bytes[GREATER] = 9;
    is_damaged(length, MORRIS_CROWDED, "more stones than points");
    bytes[GREATER] = 4;
    is_damaged(length, MORRIS_ENTRIES, "wrong number of entries");
    bytes[LAST_OF_ENTRIES] ^= 1;
    is_damaged(length, MORRIS_ENTRIES, "wrong number of entries");
    read_table("4-3");
    is_damaged(len, MORRIS_OTHER_PAIR, "file has the table of another pair");
    read_table("4-3");
    is_damaged(len - 1, MORRIS_SHORT, "file is too short");
}

/* Another pair's table under a name answers for neither pair. */
static void goes_by_name(void) {
    morris_tables *tables;
    copy_table("3-3");
    read_table("4-3");
    write_table("4-4");
    tables = open_it("it");
    IS(value_of(tables, THREE), MORRIS_OK);
    IS(value_of(tables, FOUR), MORRIS_NO_TABLE);
    TOLD(MORRIS_NO_TABLE, 0, 43, NULL, "no table of 4-3");
    IS(value_of(tables, CAPTURES), MORRIS_OTHER_PAIR);
    IS(morris_has(tables, 4, 3) * 10 + morris_has(tables, 4, 4), 1);
    morris_close(tables);
    remove_table("3-3");
    remove_table("4-4");
}

/* What the system refuses is its pair's fault alone. */
static void refused_files(void) {
    char text[256];
    snprintf(text, sizeof text, "./it/grid-3-3.nmmt: %s", strerror(EINVAL));
    IS(mkdir("it/grid-3-3.nmmt", 0700), 0);
    is_refused(MORRIS_SYSTEM, EINVAL, text);
    IS(rmdir("it/grid-3-3.nmmt") + mkfifo("it/grid-3-3.nmmt", 0600), 0);
    is_refused(MORRIS_SYSTEM, EINVAL, text);
    remove_table("3-3");
    IS(symlink("grid-3-3.nmmt", "it/grid-3-3.nmmt"), 0);
    snprintf(text, sizeof text, "./it/grid-3-3.nmmt: %s", strerror(ELOOP));
    is_refused(MORRIS_SYSTEM, ELOOP, text);
    /* Where there is no other file, nothing is opened. */
    IS(open_it("./it") == NULL, 1);
    TOLD(MORRIS_SYSTEM, ELOOP, 33, "./it/grid-3-3.nmmt", text);
    remove_table("3-3");
}

/* A missing table's pair is named, of the position itself or of the first move that leads there. */
static void missing_tables(void) {
    morris_tables *tables;
    uint32_t overlap[2] = {7, 7};
    copy_table("4-4");
    tables = open_it("it");
    IS(best(tables, THREE), MORRIS_NO_TABLE);
    TOLD(MORRIS_NO_TABLE, 0, 33, NULL, "no table of 3-3");
    IS(value_of(tables, CAPTURES), MORRIS_OK);
    TOLD(MORRIS_NO_TABLE, 0, 33, NULL, "no table of 3-3");
    IS(moves_of(tables, CAPTURES), MORRIS_NO_TABLE);
    TOLD(MORRIS_NO_TABLE, 0, 43, NULL, "no table of 4-3");
    IS(value_of(tables, FOUR), MORRIS_NO_TABLE);
    IS(best(tables, CAPTURES), MORRIS_NO_TABLE);
    TOLD(MORRIS_NO_TABLE, 0, 43, NULL, "no table of 4-3");
    IS(value_of(tables, overlap), MORRIS_OVERLAP);
    TOLD(MORRIS_OVERLAP, 0, 0, NULL, "two stones on a point");
    IS(morris_check_tables(tables), MORRIS_OK);
    morris_close(tables);
    /* A move is refused for its own file, which may be another than the position's. */
    len = 0;
    write_table("4-3");
    tables = open_it("it");
    IS(moves_of(tables, CAPTURES), MORRIS_SHORT);
    TOLD(MORRIS_SHORT, 0, 43, "it/grid-4-3.nmmt", "it/grid-4-3.nmmt: file is too short");
    morris_close(tables);
    remove_table("4-3");
    remove_table("4-4");
}

static void folders_that_are_refused(void) {
    static char path[5000];
    char text[256];
    IS(open_it("nowhere:it") == NULL, 1);
    TOLD(MORRIS_NO_TABLE, 0, 0, "nowhere:it", "nowhere:it: no table files of the board");
    IS(morris_open("it", 7, NULL) == NULL, 1);
    TOLD(MORRIS_NO_BOARD, 0, 0, NULL, "no board with this number");
    copy_table("3-3");
    IS(open_it("it:it/grid-3-3.nmmt:nowhere") == NULL, 1);
    snprintf(text, sizeof text, "it/grid-3-3.nmmt: %s", strerror(ENOTDIR));
    TOLD(MORRIS_SYSTEM, ENOTDIR, 0, "it/grid-3-3.nmmt", text);
    IS(open_it("it:") == NULL, 1);
    TOLD(MORRIS_SYSTEM, ENOENT, 0, "", "an empty path: No such file or directory");
    memset(path, 'x', sizeof path - 1);
    IS(open_it(path) == NULL, 1);
    IS(morris_last_fault()->system, ENAMETOOLONG);
    IS(strlen(morris_last_fault()->path), 4095);
    IS(strlen(morris_last_fault()->text), 4095 + 2 + strlen(strerror(ENAMETOOLONG)));
    remove_table("3-3");
}

/* Each thread has its own last fault, which another thread's calls leave. */
static void *another_thread(void *given) {
    const morris_tables *tables = (const morris_tables *)given;
    uint32_t overlap[2] = {7, 7};
    TOLD(MORRIS_OK, 0, 0, NULL, "no fault");
    IS(value_of(tables, THREE), MORRIS_OK);
    TOLD(MORRIS_OK, 0, 0, NULL, "no fault");
    IS(value_of(tables, overlap), MORRIS_OVERLAP);
    TOLD(MORRIS_OVERLAP, 0, 0, NULL, "two stones on a point");
    return NULL;
}

static void threads(void) {
    morris_tables *tables;
    const morris_fault *noted;
    pthread_t thread;
    copy_table("3-3");
    tables = open_it("it");
    IS(value_of(tables, FOUR), MORRIS_NO_TABLE);
    noted = morris_last_fault();
    IS(pthread_create(&thread, NULL, another_thread, tables), 0);
    IS(pthread_join(thread, NULL), 0);
    IS(noted == morris_last_fault(), 1);
    morris_close(tables);
    TOLD(MORRIS_NO_TABLE, 0, 43, NULL, "no table of 4-3");
    remove_table("3-3");
}

int main(int argc, char **argv) {
    char room[] = "/tmp/morris-faults-XXXXXX";
    TOLD(MORRIS_OK, 0, 0, NULL, "no fault");
    if (argc != 2 || realpath(argv[1], full) == NULL || mkdtemp(room) == NULL || chdir(room) != 0 ||
        mkdir("it", 0700) != 0) {
        return 2;
    }
    damaged_headers();
    goes_by_name();
    refused_files();
    missing_tables();
    folders_that_are_refused();
    threads();
    IS(remove("it") + chdir("/") + remove(room), 0);
    return end();
}
