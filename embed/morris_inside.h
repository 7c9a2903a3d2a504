/* What the C files of this library share. No program calls it: it isn't installed, and the shared
 * library exports none of it. */
#ifndef MORRIS_INSIDE_H
#define MORRIS_INSIDE_H

#include "morris.h"

#define MORRIS_INSIDE __attribute__((visibility("hidden")))

/* The numbers of stones that a table has, and how long a header is. */
enum { MORRIS_FEWEST = 3, MORRIS_MOST = 9, MORRIS_HEADER = 16 };
/* Where a header has the version, which is this one for a table by classes. */
enum { MORRIS_AT_VERSION = 4, MORRIS_BY_CLASSES = 2 };
/* No path has more bytes, with the zero at its end. */
enum { MORRIS_PATH = 4096 };

/* Writes the path of a pair's file in a folder into MORRIS_PATH bytes: whether there is room. If
 * there isn't, errno says so. */
MORRIS_INSIDE int morris_name_file(char *name, const char *folder, uint32_t board, int greater,
                                   int lesser);

/* Maps a file: 1 if that was done, 0 if there is none, -1 if the system refused. */
MORRIS_INSIDE int morris_map_file(const char *name, morris_view *view);
MORRIS_INSIDE void morris_unmap_file(const morris_view *view);

/* Prepares the words of a board, which are the caller's to free. */
MORRIS_INSIDE int32_t morris_make_words(uint32_t board, uint32_t **words, size_t *m);

/* Notes why a call of this thread failed, for `morris_last_fault`, and gives the status. The pair is
 * 0, 0 and the path null if it's about none. With MORRIS_SYSTEM errno says why. */
MORRIS_INSIDE int32_t morris_fail(int32_t status, int greater, int lesser, const char *path);

#endif
