/* Morris: the values of Nine Men's Morris positions, from the table files that `morris build`
 * makes.
 *
 *     int32_t status;
 *     morris_tables *tables = morris_open("tables", MORRIS_NINE, &status);
 *     morris_value value;
 *     if (tables != NULL && morris_value_of(tables, own, other, &value) == MORRIS_OK) {
 *         ...
 *     }
 *     morris_close(tables);
 *
 * There are two ways to ask. The calls of "open tables" take a handle, which has the files of a
 * folder mapped; most programs need no others. The calls of "files in memory" take an array of
 * views: the bytes of files that the program has mapped or read itself. They have no state, take no
 * memory, open no files and change only the results. Both ways give the same answers. Any thread
 * may make any call at any time, also with the same handle, views or words, as long as nobody
 * closes or changes these meanwhile. The calls of "moves without tables" need no files.
 *
 * Boards: MORRIS_NINE is the usual board, with 24 points: three rings of eight, outer, middle and
 * inner, where point 8 * r + k is place k of ring r, clockwise from the top left corner.
 * MORRIS_GRID is a board of three rows and three columns, for trials. A set of points is a mask:
 * bit p stands for point p.
 *
 * A position is two masks: `own` has the 2 to 9 stones of the player to move, `other` the 3 to 9
 * stones of the opponent. They have no point in common. All stones are on the board: tables cover
 * the second phase of the game. Masks have 32 bits: C cuts a wider number to these, and warns only
 * with -Wconversion.
 *
 * Each call returns a status, MORRIS_OK or another, and writes its results only with MORRIS_OK,
 * except where it says otherwise. Any numbers and any bytes may be passed. The caller sees to it
 * that each pointer is valid: aligned, not null except where that is allowed, and with as many
 * elements behind it as the argument beside it says; and that results overlap nothing else that is
 * passed. Where there are no elements, any pointer that isn't null will do.
 *
 * New since the first archive of 1.0.8: `morris_last_fault`, `morris_interface` and
 * MORRIS_OTHER_PAIR. And with a handle a file goes by its name: what has the name of a pair's file
 * and isn't its table is refused by the calls that need the pair, which the library of that archive
 * answered with MORRIS_NO_TABLE, as if there were none; and `morris_has` answers 1. A file that the
 * system refuses no longer prevents `morris_open` from opening the others. */
#ifndef MORRIS_H
#define MORRIS_H

#include <stddef.h>
#include <stdint.h>

#ifdef __cplusplus
extern "C" {
#endif

/* The version of this interface: raised when programs have to be changed or compiled again. The
 * call answers that of the library that the program runs with, which libmorris.so.1 has in its
 * name. */
#define MORRIS_INTERFACE 1
int32_t morris_interface(void);

/* The version of Morris, as `morris --version` prints it: of this header, and of the library that
 * the program runs with. The text is never freed. */
#define MORRIS_VERSION_STRING "1.0.9"
const char *morris_version(void);

/* ---- boards, kinds of values */

#define MORRIS_NINE 0u
#define MORRIS_GRID 1u

#define MORRIS_DRAW 0u /* neither player can force a win */
#define MORRIS_WON 1u  /* the player to move wins, in an odd number of plies */
#define MORRIS_LOST 2u /* the player to move has lost, in an even number of plies */

#define MORRIS_NONE 255u /* in place of a point: no stone is taken */

/* No position has more legal moves. */
#define MORRIS_MOST_MOVES 1944u

/* ---- statuses */

enum {
    MORRIS_OK = 0,
    MORRIS_NO_BOARD = 1,     /* there is no board with this number */
    MORRIS_OFF_BOARD = 2,    /* a mask has a point that the board doesn't have */
    MORRIS_OVERLAP = 3,      /* the masks have a point in common */
    MORRIS_STONES = 4,       /* a player has a number of stones that no position has */
    MORRIS_NO_TABLE = 5,     /* no file has the pair of a position that is asked for */
    MORRIS_NOT_PREPARED = 6, /* a file of version 2 needs prepared words, which these are not */
    MORRIS_ROOM = 7,         /* there is too little room for the results */
    MORRIS_SHORT = 8,        /* a file has fewer bytes than its header says, or than a header has */
    MORRIS_MAGIC = 9,        /* a file doesn't begin with NMMT: it is no table file */
    MORRIS_VERSION = 10,     /* the version of a file is neither 1 nor 2 */
    MORRIS_OTHER_BOARD = 11, /* a file is of another board */
    MORRIS_COUNTS = 12,      /* a number of stones in a header isn't 3 to 9, or they are swapped */
    MORRIS_CROWDED = 13,     /* a header has more stones than the board has points */
    MORRIS_ENTRIES = 14,     /* a header states a wrong number of entries */
    MORRIS_TRAILING = 15,    /* a file has more bytes than its header says */
    MORRIS_DIGEST = 16,      /* the digest at the end of a file isn't the digest of its bytes */
    MORRIS_ILLEGAL = 19,     /* the move isn't legal in the position */
    MORRIS_OVER = 20,        /* the game is over: there is no move */
    MORRIS_DISAGREE = 21,    /* what the files say of a position and of its moves disagree */
    MORRIS_OTHER_PAIR = 22   /* a file has the table of another pair than its name says */
};

/* The system refused a file or memory, and errno says why. */
#define MORRIS_SYSTEM 100

/* A line of English that says what a status means, for any number. It is never freed. */
const char *morris_error(int32_t status);

/* ---- arguments and results */

/* A table file in memory. */
typedef struct morris_view {
    const uint8_t *bytes;
    size_t len;
} morris_view;

/* The value of a position, for the player to move. */
typedef struct morris_value {
    uint16_t kind;  /* MORRIS_DRAW, MORRIS_WON or MORRIS_LOST */
    uint16_t depth; /* in how many plies best play ends the game, 0 for a draw */
} morris_value;

/* A legal move: a stone goes from one point to another. */
typedef struct morris_move {
    uint8_t from;
    uint8_t to;
    uint8_t taken; /* the point of the opponent's stone that is taken, or MORRIS_NONE */
    uint8_t pad;   /* 0 */
    morris_value value; /* of the move, which counts as a ply, for the player who makes it */
} morris_move;

/* What the header of a table file says. */
typedef struct morris_header {
    uint8_t version; /* 1: an entry for each position; 2: for each class, with prepared words */
    uint8_t board;   /* MORRIS_NINE or MORRIS_GRID */
    uint8_t greater; /* the pair of numbers of stones, the greater one first */
    uint8_t lesser;
    uint32_t pad;     /* 0 */
    uint64_t entries; /* how many entries the table has */
} morris_header;

/* ---- open tables */

/* The open table files of one board. What it has inside may change with the library. */
typedef struct morris_tables morris_tables;

/* Why a call failed, and where. */
typedef struct morris_fault {
    int32_t status;   /* what it answered; MORRIS_OK if none has failed */
    int32_t system;   /* what errno was, with MORRIS_SYSTEM, and otherwise 0 */
    uint32_t greater; /* the pair whose table is missing, or whose file is damaged or refused, */
    uint32_t lesser;  /* the greater number first; both are 0 if it is about no pair */
    const char *path; /* of the file that is damaged or refused, or of the folder; or null */
    const char *text; /* all of it in a line of English, as `T/nine-4-4.nmmt: file is too short` */
} morris_fault;

/* Says why the last of this thread's calls of "open tables" failed that did: each of these calls
 * that answers another status than MORRIS_OK notes it for the thread that made it, and one that
 * answers MORRIS_OK leaves what was noted. So ask after a call that failed, in the same thread. If
 * a table is missing, there is a pair and no path; if a file is damaged, or the system refuses it,
 * both; if `morris_open` opens nothing, the path of the folder or file that it failed at, or else
 * the path that it was given. A path of over 4,095 bytes is cut.
 *
 * It is never null. What it points to is this thread's: the library changes it when another of its
 * calls fails, and the thread's end frees it. Later versions may add members at its end. */
const morris_fault *morris_last_fault(void);

/* Maps the table files of a board that lie in a folder, under the names that `morris build` gives
 * them: nine-3-3.nmmt, nine-4-3.nmmt and so on to nine-9-9.nmmt, or grid-3-3.nmmt and so on. Files
 * that aren't there are left out. A file that is there is its pair's, whatever it holds: if it is
 * damaged, or the system refuses to open it, the calls that need that pair say so, and all other
 * pairs are answered. If `path` doesn't exist, it is divided at its colons into several
 * folders, as in `tables:/usr/share/morris`: each pair's file is taken from the first folder that
 * has it, and folders without files are skipped. Links are followed. Only headers are looked at
 * here. If a file is of version 2, opening takes some hundredths of a second and 1.4 MB of memory.
 * The system is advised that files are read here and there (POSIX_MADV_RANDOM), so that for a value
 * of a file that isn't in memory a page or two is read, and nothing around.
 *
 * Returns null if it opens nothing, and `*status`, unless `status` is null, says why: MORRIS_OK;
 * MORRIS_NO_BOARD; MORRIS_NO_TABLE if there is none of these files; or MORRIS_SYSTEM, and errno
 * says why a folder, or each of the files, couldn't be opened or mapped, or memory was refused:
 * EINVAL if something with the name of a table file isn't a regular file (a folder, a FIFO or a
 * device isn't opened or waited for); ENOENT if a path is empty.
 *
 * A file that somebody cuts short or changes while it is mapped may end the program (SIGBUS), or
 * give wrong values: files are replaced by renaming, as `morris build` does. */
morris_tables *morris_open(const char *path, uint32_t board, int32_t *status);

/* Closes the tables: no call may use them any more. Null may be closed. */
void morris_close(morris_tables *tables);

/* Whether there is a file with the name of this pair of numbers of stones, either number first: 1
 * or 0. What is in it isn't looked at. */
int32_t morris_has(const morris_tables *tables, uint32_t greater, uint32_t lesser);

/* The value of a position, for the player to move. A call takes less than a microsecond.
 *
 * The statuses of `morris_lookup`. If what has the name of the pair's file isn't its table:
 * MORRIS_SYSTEM if it couldn't be opened, and errno says why; MORRIS_SHORT, MORRIS_MAGIC,
 * MORRIS_VERSION, MORRIS_OTHER_BOARD, MORRIS_COUNTS, MORRIS_CROWDED, MORRIS_ENTRIES,
 * MORRIS_TRAILING, MORRIS_OTHER_PAIR: the first that applies. */
int32_t morris_value_of(const morris_tables *tables, uint32_t own, uint32_t other,
                        morris_value *out);

/* The legal moves of a position, each with its value, in the order and with the statuses of
 * `morris_moves`, and those of `morris_value_of` for a file that isn't its pair's table. `out` has
 * `room` places, of which the first `*count` are filled: MORRIS_MOST_MOVES are always enough. */
int32_t morris_moves_of(const morris_tables *tables, uint32_t own, uint32_t other, morris_move *out,
                        size_t room, size_t *count);

/* A best move of a position: one that wins soonest; if no move wins, one that keeps the draw; if
 * all lose, one that loses latest. Of several it is the first in the order of `morris_moves_of`,
 * except at a draw: there it is one after which the opponent has the fewest moves that keep the
 * draw, so that a slip is likeliest. A table doesn't rank draws: this is a rule of thumb, which
 * looks two plies ahead. It takes some hundredths of a millisecond, and 32 KB of stack.
 *
 * The statuses of `morris_value_of` for the position, and of `morris_moves_of` for it and, at a
 * draw, for the positions after its drawing moves; MORRIS_OVER; MORRIS_DISAGREE if the best move
 * has another value than the position, as in damaged files: `morris verify` finds them. */
int32_t morris_best(const morris_tables *tables, uint32_t own, uint32_t other, morris_move *out);

/* Whether each file is whole and its pair's, by `morris_check` and `morris_digest`: the status of
 * the first file that isn't, in the order of the path and then of the numbers of stones, the
 * greater one first. `morris_last_fault` names it. It reads all files, each from end to end, at
 * some two hundred megabytes a second.
 *
 * MORRIS_SYSTEM if a file couldn't be opened, and errno says why; the statuses of `morris_check`;
 * MORRIS_OTHER_BOARD, MORRIS_OTHER_PAIR; MORRIS_DIGEST. */
int32_t morris_check_tables(const morris_tables *tables);

/* ---- moves without tables */

/* The position after a legal move, as the opponent sees it, who is to move then. The move's value
 * isn't looked at. A move may be played as `morris_play(board, own, other, &move, &own, &other)`.
 *
 * MORRIS_NO_BOARD; MORRIS_OFF_BOARD, MORRIS_OVERLAP, MORRIS_STONES; MORRIS_ILLEGAL where the move
 * isn't one of `morris_legal_moves`. */
int32_t morris_play(uint32_t board, uint32_t own, uint32_t other, const morris_move *move,
                    uint32_t *next_own, uint32_t *next_other);

/* The legal moves of a position, in order of from, to, taken. `out` has `room` places, of which the
 * first `*count` are filled: MORRIS_MOST_MOVES are always enough. Each has the value of a draw,
 * since nothing is known of it.
 *
 * MORRIS_NO_BOARD; MORRIS_OFF_BOARD, MORRIS_OVERLAP, MORRIS_STONES; MORRIS_ROOM where `room` is
 * less than the number of legal moves: then `*count` hasn't changed. */
int32_t morris_legal_moves(uint32_t board, uint32_t own, uint32_t other, morris_move *out,
                           size_t room, size_t *count);

/* ---- files in memory: once in a program */

/* How many words of 4 bytes `morris_prepare` fills for a board: MORRIS_NINE_WORDS for MORRIS_NINE,
 * 0 if there is no such board. Like the next call it goes through all sets of points, which takes
 * some hundredths of a second. */
#define MORRIS_NINE_WORDS 354229u
size_t morris_prepare_size(uint32_t board);

/* Fills `words` with what files of version 2 need for a board. `room` is how many words there are,
 * at least `morris_prepare_size(board)`; the rest doesn't change. Each version of the library has
 * words of its own, the same each time: prepare words that you store anew for another version,
 * which could read them wrongly. A program that has only files of version 1 needs no words, and
 * passes none (`m` is 0).
 *
 * MORRIS_NO_BOARD; MORRIS_ROOM, and then some words may have changed. */
int32_t morris_prepare(uint32_t board, uint32_t *words, size_t room);

/* ---- files in memory: of a file */

/* Whether a file is a table file, by its header and its length. The entries and the digest aren't
 * looked at. Writes what the header says. For a file of version 2 it goes through all sets of as
 * many points, which takes some hundredths of a second at most.
 *
 * MORRIS_SHORT, MORRIS_MAGIC, MORRIS_VERSION, MORRIS_OTHER_BOARD (no known board), MORRIS_COUNTS,
 * MORRIS_CROWDED, MORRIS_ENTRIES, MORRIS_SHORT, MORRIS_TRAILING: the first that applies. */
int32_t morris_check(const morris_view *file, morris_header *out);

/* Whether the digest at the end of a file, its last 32 bytes, is the SHA-256 of all bytes before
 * it. It reads the whole file, at some two hundred megabytes a second. This finds damage only:
 * whoever writes a file can write the digest of any bytes. `morris verify` finds out whether the
 * values are right.
 *
 * MORRIS_SHORT if there are fewer than 32 bytes; MORRIS_DIGEST. */
int32_t morris_digest(const morris_view *file);

/* ---- files in memory: of a position */

/* The value of a position: what the first of the `n` files that has its pair in its header says. A
 * player to move with two stones has lost in 0 plies, and no file is needed. It reads the file's
 * header and two bytes; a call takes less than a microsecond. The files may be of both versions,
 * and in any order.
 *
 * The library believes the files: if they are as `morris build` wrote them, the value is the
 * position's value in the game. `morris verify BOARD --from FOLDER`, run once before, finds out
 * whether they are; no call of this library does. `words` are the `m` words that `morris_prepare`
 * filled for this board. Only their beginning and number are tested: with other words a file of
 * version 2 may give a wrong value, and nothing worse.
 *
 * MORRIS_NO_BOARD; MORRIS_OFF_BOARD, MORRIS_OVERLAP, MORRIS_STONES; MORRIS_NO_TABLE; MORRIS_SHORT,
 * MORRIS_MAGIC, MORRIS_VERSION, MORRIS_OTHER_BOARD, MORRIS_NOT_PREPARED, MORRIS_ENTRIES,
 * MORRIS_SHORT, MORRIS_TRAILING for the file: the first that applies. */
int32_t morris_lookup(uint32_t board, const morris_view *files, size_t n, const uint32_t *words,
                      size_t m, uint32_t own, uint32_t other, morris_value *out);

/* The legal moves of a position, in order of from, to, taken, each with its value for the player
 * who makes it: won in d plies if the opponent has then lost in d - 1, and so on. `out` has `room`
 * places, of which the first `*count` are filled: MORRIS_MOST_MOVES are always enough. A position
 * in which the game is over has no legal moves.
 *
 * A move is best if it has the value of the position. Captures lead to pairs with fewer stones, so
 * the files of these are needed as well.
 *
 * The statuses of `morris_lookup` for the masks; MORRIS_ROOM if `room` is less than the number of
 * legal moves; the status of `morris_lookup` for the position after the first move for which there
 * is one: then some of `out` may have changed, and `*count` hasn't. */
int32_t morris_moves(uint32_t board, const morris_view *files, size_t n, const uint32_t *words,
                     size_t m, uint32_t own, uint32_t other, morris_move *out, size_t room,
                     size_t *count);

#ifdef __cplusplus
}
#endif

#endif
