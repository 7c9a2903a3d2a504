/* What the statuses mean, and which file the last fault of a thread was about. */
#define _POSIX_C_SOURCE 200809L
#include "morris_inside.h"

#include <errno.h>
#include <stdio.h>
#include <string.h>

const char *morris_error(int32_t status) {
    switch (status) {
    case MORRIS_OK: return "no fault";
    case MORRIS_NO_BOARD: return "no board with this number";
    case MORRIS_OFF_BOARD: return "a mask has a point that the board doesn't have";
    case MORRIS_OVERLAP: return "two stones on a point";
    case MORRIS_STONES: return "bad number of stones";
    case MORRIS_NO_TABLE: return "no table of the pair";
    case MORRIS_NOT_PREPARED: return "words aren't prepared";
    case MORRIS_ROOM: return "too little room";
    case MORRIS_SHORT: return "file is too short";
    case MORRIS_MAGIC: return "not a table file";
    case MORRIS_VERSION: return "unknown version";
    case MORRIS_OTHER_BOARD: return "another board";
    case MORRIS_COUNTS: return "bad counts";
    case MORRIS_CROWDED: return "more stones than points";
    case MORRIS_ENTRIES: return "wrong number of entries";
    case MORRIS_TRAILING: return "bytes after the table";
    case MORRIS_DIGEST: return "digest is wrong";
    case MORRIS_ILLEGAL: return "move isn't legal";
    case MORRIS_OVER: return "the game is over";
    case MORRIS_DISAGREE: return "the files of this position and its moves disagree";
    case MORRIS_OTHER_PAIR: return "file has the table of another pair";
    case MORRIS_SYSTEM: return "the system refused a file or memory";
    default: return "unknown status";
    }
}

/* The last fault of each thread. Its text is written once it is asked for. */
static __thread struct {
    morris_fault fault;
    char path[MORRIS_PATH], text[MORRIS_PATH + 256];
} last;

int32_t morris_fail(int32_t status, int greater, int lesser, const char *path) {
    last.fault.status = status;
    last.fault.system = status == MORRIS_SYSTEM ? errno : 0;
    last.fault.greater = (uint32_t)greater;
    last.fault.lesser = (uint32_t)lesser;
    last.fault.path = NULL;
    if (path != NULL) {
        size_t len = strlen(path), most = sizeof last.path - 1;
        len = len < most ? len : most;
        memcpy(last.path, path, len);
        last.path[len] = '\0';
        last.fault.path = last.path;
    }
    return status;
}

const morris_fault *morris_last_fault(void) {
    const morris_fault *it = &last.fault;
    const char *after = it->path != NULL ? ": " : "", *path = it->path != NULL ? it->path : "";
    const char *why = morris_error(it->status);
    char said[128];
    int error = errno;
    if (it->status == MORRIS_NO_TABLE && it->greater != 0) {
        snprintf(last.text, sizeof last.text, "no table of %u-%u", (unsigned)it->greater,
                 (unsigned)it->lesser);
    } else {
        if (it->status == MORRIS_NO_TABLE) {
            why = "no table files of the board";
        } else if (it->status == MORRIS_SYSTEM && strerror_r(it->system, said, sizeof said) == 0) {
            why = said;
        }
        path = it->path != NULL && *path == '\0' ? "an empty path" : path;
        snprintf(last.text, sizeof last.text, "%s%s%s", path, after, why);
    }
    last.fault.text = last.text;
    errno = error;
    return it;
}
