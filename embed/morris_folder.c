/* The table files of a folder. */
#define _POSIX_C_SOURCE 200809L
#include "morris_folder.h"
#include "morris_inside.h"

#include <errno.h>
#include <fcntl.h>
#include <stdio.h>
#include <stdlib.h>
#include <string.h>
#include <sys/mman.h>
#include <sys/stat.h>
#include <unistd.h>

/* What the words of a folder point to that has none: no call takes a null pointer. */
static uint32_t no_words;

static void make_empty(morris_folder *folder) {
    memset(folder->files, 0, sizeof folder->files);
    folder->n = 0;
    folder->words = &no_words;
    folder->m = 0;
}

/* Closes a file, and leaves errno as it was. */
static void close_file(int file) {
    int why = errno;
    close(file);
    errno = why;
}

static int is_file(const struct stat *about) {
    errno = S_ISREG(about->st_mode) ? errno : EINVAL;
    return S_ISREG(about->st_mode);
}

/* Opens a regular file for reading, and nothing else. What takes its place meanwhile is opened
 * without the wait that a FIFO has, and closed again. */
static int open_file(const char *name, struct stat *about) {
    int file = -1;
    if (stat(name, about) == 0 && is_file(about)) {
        file = open(name, O_RDONLY | O_CLOEXEC | O_NONBLOCK | O_NOCTTY);
    }
    if (file >= 0 && !(fstat(file, about) == 0 && is_file(about))) {
        close_file(file);
        file = -1;
    }
    return file;
}

int morris_map_file(const char *name, morris_view *view) {
    static const uint8_t none;
    struct stat about;
    void *bytes;
    int file = open_file(name, &about);
    if (file < 0) {
        return errno == ENOENT ? 0 : -1;
    }
    if (about.st_size == 0) { /* nothing to map: too short for any call */
        close(file);
        view->bytes = &none;
        view->len = 0;
        return 1;
    }
    bytes = mmap(NULL, (size_t)about.st_size, PROT_READ, MAP_SHARED, file, 0);
    close_file(file);
    if (bytes == MAP_FAILED) {
        return -1;
    }
    /* Look-ups go here and there: what stands around their bytes needn't be read. */
    posix_madvise(bytes, (size_t)about.st_size, POSIX_MADV_RANDOM);
    view->bytes = bytes;
    view->len = (size_t)about.st_size;
    return 1;
}

void morris_unmap_file(const morris_view *view) {
    if (view->len > 0) {
        munmap((void *)(uintptr_t)view->bytes, view->len);
    }
}

int morris_name_file(char *name, const char *folder, uint32_t board, int greater, int lesser) {
    const char *of = board == MORRIS_NINE ? "nine" : "grid";
    int length = snprintf(name, MORRIS_PATH, "%s/%s-%d-%d.nmmt", folder, of, greater, lesser);
    int has_room = length >= 0 && length < MORRIS_PATH;
    errno = has_room ? errno : ENAMETOOLONG;
    return has_room;
}

/* Maps the files of all pairs, in the order of the greater and then of the lesser number. */
static int32_t map_files(const char *path, uint32_t board, morris_folder *out) {
    char name[MORRIS_PATH];
    int greater, lesser;
    if (*path == '\0') { /* it isn't the root */
        errno = ENOENT;
        return MORRIS_SYSTEM;
    }
    for (greater = MORRIS_FEWEST; greater <= MORRIS_MOST; greater++) {
        for (lesser = MORRIS_FEWEST; lesser <= greater; lesser++) {
            int mapped = morris_name_file(name, path, board, greater, lesser)
                             ? morris_map_file(name, &out->files[out->n])
                             : -1;
            if (mapped < 0) {
                return MORRIS_SYSTEM;
            }
            out->n += (size_t)mapped;
        }
    }
    return out->n > 0 ? MORRIS_OK : MORRIS_NO_TABLE;
}

int32_t morris_make_words(uint32_t board, uint32_t **words, size_t *m) {
    size_t count = board == MORRIS_NINE ? MORRIS_NINE_WORDS : morris_prepare_size(board);
    uint32_t *made = malloc(count * sizeof *made);
    if (made == NULL) {
        return MORRIS_SYSTEM;
    }
    *words = made;
    *m = count;
    return morris_prepare(board, made, count);
}

/* Prepares the words, where a file is one by classes. */
static int32_t prepare_words(morris_folder *out) {
    size_t i;
    for (i = 0; i < out->n; i++) {
        const morris_view *file = &out->files[i];
        if (file->len >= MORRIS_HEADER && file->bytes[MORRIS_AT_VERSION] == MORRIS_BY_CLASSES) {
            return morris_make_words(out->board, &out->words, &out->m);
        }
    }
    return MORRIS_OK;
}

int32_t morris_open_folder(const char *path, uint32_t board, morris_folder *out) {
    int32_t status;
    make_empty(out);
    out->board = board;
    if (board != MORRIS_NINE && board != MORRIS_GRID) {
        return MORRIS_NO_BOARD;
    }
    status = map_files(path, board, out);
    if (status == MORRIS_OK) {
        status = prepare_words(out);
    }
    if (status != MORRIS_OK) {
        int why = errno;
        morris_close_folder(out);
        errno = why;
    }
    return status;
}

void morris_close_folder(morris_folder *folder) {
    size_t i;
    for (i = 0; i < folder->n; i++) {
        morris_unmap_file(&folder->files[i]);
    }
    if (folder->m > 0) {
        free(folder->words);
    }
    make_empty(folder);
}
