/* Open tables: a handle over the table files of one or several folders. */
#define _POSIX_C_SOURCE 200809L
#include "morris_inside.h"

#include <errno.h>
#include <stdio.h>
#include <stdlib.h>
#include <string.h>
#include <sys/mman.h>
#include <sys/stat.h>

enum { NUMBERS = MORRIS_MOST - MORRIS_FEWEST + 1, PAIRS = NUMBERS * (NUMBERS + 1) / 2 };
/* Where a header has the board and the numbers of stones, and how many points a grid has. */
enum { BOARD = 5, GREATER = 6, LESSER = 7, GRID_POINTS = 9 };

/* What has the name of a pair's file. */
struct file {
    morris_view view; /* mapped, unless the system refused it */
    int32_t refusal;  /* why no call looks into it, or MORRIS_OK */
    int why;          /* what errno was, where the system refused it */
    int greater, lesser;
    char *path;
};

struct morris_tables {
    uint32_t board;
    uint32_t *words; /* prepared words where a file is one by classes */
    size_t m;
    /* The file of each pair, by its two numbers of stones, that calls look into; and the first that
     * has its name, which may be refused. Null if there is none. */
    const morris_view *file_of[NUMBERS][NUMBERS];
    const struct file *named[NUMBERS][NUMBERS];
    size_t n;
    struct file files[]; /* of all folders, in the order of the path */
};

/* What the words point to where there are none: no call takes a null pointer. */
static uint32_t no_words;

int32_t morris_interface(void) {
    return MORRIS_INTERFACE;
}

const char *morris_version(void) {
    return MORRIS_VERSION_STRING;
}

/* ---- opening and closing */

/* Divides a path at its colons, where it names nothing that is there, and says how many parts it
 * has. Each ends with a zero. */
static size_t divide(char *path) {
    struct stat about;
    size_t parts = 1;
    if (stat(path, &about) == 0) {
        return parts;
    }
    for (; *path != '\0'; path++) {
        if (*path == ':') {
            *path = '\0';
            parts++;
        }
    }
    return parts;
}

/* Notes that a call failed for a file. */
static int32_t fail_of(const struct file *file, int32_t status) {
    errno = status == MORRIS_SYSTEM ? file->why : errno;
    return morris_fail(status, file->greater, file->lesser, file->path);
}

/* Why a file isn't the table of its name, by its header and its length, or MORRIS_OK. */
static int32_t check_header(const morris_tables *tables, const struct file *file) {
    const uint8_t *bytes = file->view.bytes;
    morris_header header;
    int32_t status;
    if (file->view.len < MORRIS_HEADER) {
        return MORRIS_SHORT;
    }
    status = morris_check(&file->view, &header);
    if (status == MORRIS_MAGIC || status == MORRIS_VERSION) {
        return status;
    }
    if (bytes[BOARD] != tables->board) {
        return MORRIS_OTHER_BOARD;
    }
    if (status == MORRIS_OK && (bytes[GREATER] != file->greater || bytes[LESSER] != file->lesser)) {
        return MORRIS_OTHER_PAIR;
    }
    return status;
}

/* Why no call may look into a file, or MORRIS_OK. If its header has the pair of its name, the calls
 * themselves test all else. */
static int32_t refusal_of(const morris_tables *tables, const struct file *file) {
    const morris_view *view = &file->view;
    if (view->len >= MORRIS_HEADER && view->bytes[GREATER] == file->greater &&
        view->bytes[LESSER] == file->lesser) {
        return MORRIS_OK;
    }
    return check_header(tables, file);
}

/* Notes a file that was found, which is its pair's unless an earlier folder has one. */
static void note_file(morris_tables *tables, struct file *file) {
    int a = file->greater - MORRIS_FEWEST, b = file->lesser - MORRIS_FEWEST;
    if (tables->named[a][b] == NULL) {
        tables->named[a][b] = file;
        tables->file_of[a][b] = file->refusal == MORRIS_OK ? &file->view : NULL;
    }
}

/* Opens what has a pair's name in a folder, if anything has. A file that the system refuses is
 * noted as refused: unless the folder itself is refused, that is its pair's fault alone. */
static int32_t open_file(morris_tables *tables, const char *folder, int greater, int lesser) {
    struct file *file = &tables->files[tables->n];
    char name[MORRIS_PATH];
    struct stat about;
    int mapped = -1;
    if (!morris_name_file(name, folder, tables->board, greater, lesser)) {
        return morris_fail(MORRIS_SYSTEM, 0, 0, folder);
    }
    mapped = morris_map_file(name, &file->view);
    if (mapped == 0) {
        return MORRIS_OK;
    }
    file->why = mapped < 0 ? errno : 0;
    file->path = malloc(strlen(name) + 1);
    tables->n++;
    if (file->path == NULL) {
        return morris_fail(MORRIS_SYSTEM, greater, lesser, name);
    }
    strcpy(file->path, name);
    file->greater = greater;
    file->lesser = lesser;
    if (mapped < 0 && snprintf(name, sizeof name, "%s/.", folder) > 0 && stat(name, &about) != 0) {
        return morris_fail(MORRIS_SYSTEM, 0, 0, folder);
    }
    file->refusal = mapped < 0 ? MORRIS_SYSTEM : refusal_of(tables, file);
    note_file(tables, file);
    return MORRIS_OK;
}

/* Opens the files of a folder, in the order of the greater and then of the lesser number. */
static int32_t open_folder(morris_tables *tables, const char *folder) {
    int most = tables->board == MORRIS_GRID ? GRID_POINTS : 2 * MORRIS_MOST, greater, lesser;
    int32_t status = MORRIS_OK;
    if (*folder == '\0') { /* it isn't the root */
        errno = ENOENT;
        return morris_fail(MORRIS_SYSTEM, 0, 0, folder);
    }
    for (greater = MORRIS_FEWEST; greater <= MORRIS_MOST; greater++) {
        for (lesser = MORRIS_FEWEST; lesser <= greater && greater + lesser <= most; lesser++) {
            status = status == MORRIS_OK ? open_file(tables, folder, greater, lesser) : status;
        }
    }
    return status;
}

/* Prepares the words, where a file is one by classes. */
static int32_t prepare_words(morris_tables *tables) {
    size_t i;
    for (i = 0; i < tables->n; i++) {
        const struct file *it = &tables->files[i];
        if (it->refusal == MORRIS_OK && it->view.bytes[MORRIS_AT_VERSION] == MORRIS_BY_CLASSES) {
            int32_t status = morris_make_words(tables->board, &tables->words, &tables->m);
            return status == MORRIS_OK ? status : morris_fail(status, 0, 0, NULL);
        }
    }
    return MORRIS_OK;
}

/* Opens the folders of a path that was divided. There has to be a file that isn't refused by the
 * system. */
static int32_t open_folders(morris_tables *tables, const char *path, const char *part,
                            size_t parts) {
    size_t i;
    for (; parts > 0; parts--, part += strlen(part) + 1) {
        int32_t status = open_folder(tables, part);
        if (status != MORRIS_OK) {
            return status;
        }
    }
    for (i = 0; i < tables->n; i++) {
        if (tables->files[i].refusal != MORRIS_SYSTEM) {
            return prepare_words(tables);
        }
    }
    return tables->n > 0 ? fail_of(&tables->files[0], MORRIS_SYSTEM)
                         : morris_fail(MORRIS_NO_TABLE, 0, 0, path);
}

/* Opens the folders of a path, of which `parts` is a copy that is changed. */
static morris_tables *open_path(const char *path, char *part, uint32_t board, int32_t *status) {
    size_t parts = divide(part);
    morris_tables *tables = calloc(1, sizeof *tables + parts * PAIRS * sizeof *tables->files);
    if (tables == NULL) {
        *status = morris_fail(MORRIS_SYSTEM, 0, 0, NULL);
        return NULL;
    }
    tables->board = board;
    tables->words = &no_words;
    *status = open_folders(tables, path, part, parts);
    if (*status != MORRIS_OK) {
        int why = errno;
        morris_close(tables);
        errno = why;
        return NULL;
    }
    return tables;
}

morris_tables *morris_open(const char *path, uint32_t board, int32_t *status) {
    morris_tables *tables = NULL;
    int32_t answer;
    if (board != MORRIS_NINE && board != MORRIS_GRID) {
        answer = morris_fail(MORRIS_NO_BOARD, 0, 0, NULL);
    } else {
        char *copy = malloc(strlen(path) + 1);
        if (copy == NULL) {
            answer = morris_fail(MORRIS_SYSTEM, 0, 0, NULL);
        } else {
            int why;
            tables = open_path(path, strcpy(copy, path), board, &answer);
            why = errno;
            free(copy);
            errno = why;
        }
    }
    if (status != NULL) {
        *status = answer;
    }
    return tables;
}

void morris_close(morris_tables *tables) {
    size_t i;
    for (i = 0; tables != NULL && i < tables->n; i++) {
        morris_unmap_file(&tables->files[i].view);
        free(tables->files[i].path);
    }
    if (tables != NULL && tables->m > 0) {
        free(tables->words);
    }
    free(tables);
}

/* ---- asking */

/* The places of a pair of numbers of stones, in either order: whether a table may have it. */
static int is_pair(uint32_t a, uint32_t b, uint32_t *greater, uint32_t *lesser) {
    *greater = (a > b ? a : b) - MORRIS_FEWEST;
    *lesser = (a > b ? b : a) - MORRIS_FEWEST;
    return *greater < NUMBERS && *lesser < NUMBERS;
}

/* The file of a pair that calls look into, or null. */
static const morris_view *file_of(const morris_tables *tables, uint32_t a, uint32_t b) {
    uint32_t greater, lesser;
    return is_pair(a, b, &greater, &lesser) ? tables->file_of[greater][lesser] : NULL;
}

/* What has the name of a pair's file, or null. */
static const struct file *named(const morris_tables *tables, uint32_t a, uint32_t b) {
    uint32_t greater, lesser;
    return is_pair(a, b, &greater, &lesser) ? tables->named[greater][lesser] : NULL;
}

int32_t morris_has(const morris_tables *tables, uint32_t greater, uint32_t lesser) {
    return named(tables, greater, lesser) != NULL;
}

/* How many points a set has: those of its pairs of bits, then of its fours and its bytes, side by
 * side. */
static uint32_t count_of(uint32_t set) {
    set -= set >> 1 & 0x55555555u;
    set = (set & 0x33333333u) + (set >> 2 & 0x33333333u);
    set = (set + (set >> 4)) & 0x0f0f0f0fu;
    return set * 0x01010101u >> 24;
}

/* Puts the file of a pair after the first `n` of those that a call is handed, where there is one,
 * and says how many there are then. A call is handed no others than those that it may read, so
 * that it needn't look for these among all. */
static size_t with_file(const morris_view *file, morris_view *files, size_t n) {
    if (file != NULL) {
        files[n++] = *file;
    }
    return n;
}

/* Whether a status is about the file of the pair that was asked for. */
static int is_of_file(int32_t status) {
    return (status >= MORRIS_NO_TABLE && status <= MORRIS_NOT_PREPARED) ||
           (status >= MORRIS_SHORT && status <= MORRIS_DIGEST);
}

/* The status of a look-up that had one for a position with these numbers of stones: if calls don't
 * look into its file, why. */
static int32_t fail_of_pair(const morris_tables *tables, int32_t status, uint32_t a, uint32_t b) {
    const struct file *file = named(tables, a, b);
    if (!is_of_file(status)) {
        return morris_fail(status, 0, 0, NULL);
    }
    if (file == NULL) {
        return morris_fail(status, (int)(a > b ? a : b), (int)(a > b ? b : a), NULL);
    }
    if (status == MORRIS_NO_TABLE) {
        /* (else the header was changed meanwhile) */
        status = file->refusal != MORRIS_OK ? file->refusal : MORRIS_OTHER_PAIR;
    }
    return fail_of(file, status);
}

/* The value of a position, without a note of why it has none. */
static int32_t look_up(const morris_tables *tables, uint32_t own, uint32_t other,
                       morris_value *out) {
    morris_view files[1];
    size_t n = with_file(file_of(tables, count_of(own), count_of(other)), files, 0);
    return morris_lookup(tables->board, files, n, tables->words, tables->m, own, other, out);
}

int32_t morris_value_of(const morris_tables *tables, uint32_t own, uint32_t other,
                        morris_value *out) {
    int32_t status = look_up(tables, own, other, out);
    return status == MORRIS_OK
               ? status
               : fail_of_pair(tables, status, count_of(own), count_of(other));
}

/* Notes the first move of a position that has no value, where the moves were refused with a
 * status. They are listed once more, into the same places. */
static int32_t fail_of_moves(const morris_tables *tables, int32_t status, uint32_t own,
                             uint32_t other, morris_move *out, size_t room) {
    size_t count = 0, i;
    if (is_of_file(status)) {
        morris_legal_moves(tables->board, own, other, out, room, &count);
    }
    for (i = 0; i < count; i++) {
        morris_value value;
        uint32_t next_own, next_other;
        int32_t found =
            morris_play(tables->board, own, other, &out[i], &next_own, &next_other);
        found = found == MORRIS_OK ? look_up(tables, next_own, next_other, &value) : found;
        if (found != MORRIS_OK) {
            return fail_of_pair(tables, found, count_of(next_own), count_of(next_other));
        }
    }
    return morris_fail(status, 0, 0, NULL);
}

int32_t morris_moves_of(const morris_tables *tables, uint32_t own, uint32_t other, morris_move *out,
                        size_t room, size_t *count) {
    uint32_t stones = count_of(own), others = count_of(other);
    morris_view files[2];
    size_t n = with_file(file_of(tables, others, stones), files, 0);
    int32_t status;
    n = others > 0 ? with_file(file_of(tables, others - 1, stones), files, n) : n;
    status = morris_moves(tables->board, files, n, tables->words, tables->m, own, other, out, room,
                          count);
    return status == MORRIS_OK ? status : fail_of_moves(tables, status, own, other, out, room);
}

/* Advises the system in what order a file's bytes will be read. */
static void advise(const morris_view *file, int advice) {
    if (file->len > 0) {
        posix_madvise((void *)(uintptr_t)file->bytes, file->len, advice);
    }
}

/* Whether the digest of a file is right, which is read from end to end. */
static int32_t check_digest(const morris_view *file) {
    int32_t status;
    advise(file, POSIX_MADV_SEQUENTIAL);
    status = morris_digest(file);
    advise(file, POSIX_MADV_RANDOM);
    return status;
}

int32_t morris_check_tables(const morris_tables *tables) {
    size_t i;
    for (i = 0; i < tables->n; i++) {
        const struct file *file = &tables->files[i];
        int32_t status = file->refusal;
        if (status != MORRIS_SYSTEM) {
            status = check_header(tables, file);
        }
        if (status == MORRIS_OK) {
            status = check_digest(&file->view);
        }
        if (status != MORRIS_OK) {
            return fail_of(file, status);
        }
    }
    return MORRIS_OK;
}

/* ---- choosing a move */

/* How good a value is for the player who has it: sooner wins and later losses score higher. */
static int32_t score(morris_value value) {
    int32_t most = UINT16_MAX + 1;
    switch (value.kind) {
    case MORRIS_WON: return most - value.depth;
    case MORRIS_LOST: return value.depth - most;
    default: return 0;
    }
}

/* How many of some moves have a value of this score. */
static size_t count_score(const morris_move *moves, size_t count, int32_t wanted) {
    size_t found = 0, i;
    for (i = 0; i < count; i++) {
        found += score(moves[i].value) == wanted;
    }
    return found;
}

/* How many moves that keep a draw the opponent has after a move. */
static int32_t count_replies(const morris_tables *tables, uint32_t own, uint32_t other,
                             const morris_move *move, size_t *replies) {
    morris_move moves[MORRIS_MOST_MOVES];
    size_t count = 0;
    uint32_t left = move->taken == MORRIS_NONE ? other : other & ~(1u << move->taken);
    uint32_t after = (own & ~(1u << move->from)) | 1u << move->to;
    int32_t status = morris_moves_of(tables, left, after, moves, MORRIS_MOST_MOVES, &count);
    *replies = count_score(moves, count, 0);
    return status;
}

/* Of the moves that keep a draw, the first after which the fewest moves keep it too. */
static int32_t hardest(const morris_tables *tables, uint32_t own, uint32_t other,
                       const morris_move *moves, size_t count, morris_move *out) {
    size_t least = MORRIS_MOST_MOVES + 1, i;
    for (i = 0; i < count; i++) {
        size_t replies;
        int32_t status;
        if (moves[i].value.kind != MORRIS_DRAW) {
            continue;
        }
        status = count_replies(tables, own, other, &moves[i], &replies);
        if (status != MORRIS_OK) {
            return status;
        }
        if (replies < least) {
            least = replies;
            *out = moves[i];
        }
    }
    return MORRIS_OK;
}

int32_t morris_best(const morris_tables *tables, uint32_t own, uint32_t other, morris_move *out) {
    morris_move moves[MORRIS_MOST_MOVES], found;
    morris_value value;
    size_t count, best = 0, i;
    int32_t status = morris_value_of(tables, own, other, &value);
    if (status == MORRIS_OK) {
        status = morris_moves_of(tables, own, other, moves, MORRIS_MOST_MOVES, &count);
    }
    if (status != MORRIS_OK) {
        return status;
    }
    if (count == 0) {
        int is_over = value.kind == MORRIS_LOST && value.depth == 0;
        return morris_fail(is_over ? MORRIS_OVER : MORRIS_DISAGREE, 0, 0, NULL);
    }
    for (i = 1; i < count; i++) {
        best = score(moves[i].value) > score(moves[best].value) ? i : best;
    }
    if (score(moves[best].value) != score(value)) {
        return morris_fail(MORRIS_DISAGREE, 0, 0, NULL);
    }
    found = moves[best];
    if (value.kind == MORRIS_DRAW) {
        status = hardest(tables, own, other, moves, count, &found);
    }
    if (status == MORRIS_OK) {
        *out = found;
    }
    return status;
}
