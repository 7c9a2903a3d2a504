/* The table files of a folder, for programs in C and C++ on systems with mmap. */
#ifndef MORRIS_FOLDER_H
#define MORRIS_FOLDER_H

#include "morris.h"

#ifdef __cplusplus
extern "C" {
#endif

/* A file that somebody cuts short or changes while it is mapped may end the program (SIGBUS), or
 * give wrong values: files are replaced by renaming, as `morris build` does. */

/* No folder has more table files of a board: one for each pair of numbers of stones. */
#define MORRIS_MOST_FILES 28u

/* What `morris_open_folder` opened: hand `files, n, words, m` to `morris_lookup` and
 * `morris_moves`. Any thread may read it. A copy is void once the folder is closed.
 *
 * An empty folder has no files: `n` and `m` are 0. Calls take it too, since none of its pointers is
 * null. A struct of which all bytes are 0 may only be closed. */
typedef struct morris_folder {
    uint32_t board;
    morris_view files[MORRIS_MOST_FILES]; /* each mapped for reading */
    size_t n;
    uint32_t *words; /* prepared if a file is of version 2, otherwise none (`m` is 0) */
    size_t m;
} morris_folder;

/* Maps the table files of a board that lie in a folder, under the names that `morris build` gives
 * them: nine-3-3.nmmt, nine-4-3.nmmt and so on to nine-9-9.nmmt, or grid-3-3.nmmt and so on. Files
 * that aren't there are left out. Links are followed. If a file is of version 2, words are
 * prepared, which takes some hundredths of a second and 4 bytes of memory a word. The files aren't
 * looked into here: calls that read one test its header. The system is advised that they are read
 * here and there (POSIX_MADV_RANDOM): before you read one from end to end, as by `morris_digest`,
 * advise it of that by `posix_madvise`.
 *
 * Returns MORRIS_OK; MORRIS_NO_BOARD; MORRIS_NO_TABLE if the folder has none of these files; or
 * MORRIS_SYSTEM, and errno says why a file couldn't be opened or mapped, or memory was refused:
 * EINVAL if something with the name of a table file isn't a regular file (a folder, a FIFO or a
 * device isn't opened or waited for); ENOENT if the path is empty. `out` may hold anything before;
 * it is overwritten, not closed. Unless the status is MORRIS_OK the folder is empty. */
int32_t morris_open_folder(const char *path, uint32_t board, morris_folder *out);

/* Closes the folder, which is empty then: its files and words may not be read any more. An empty
 * folder may be closed. */
void morris_close_folder(morris_folder *folder);

#ifdef __cplusplus
}
#endif

#endif
