/* Moves without tables: plays FOLDER, which has the tables of Grid. The moves are those of the
 * proved list, no others are played, and each leads where that list says. With no folder it reads
 * positions from standard input, one a line, and prints each of their moves with the position after
 * it, so that these can be compared with others. */
#include "check.h"
#include "morris_folder.h"

#include <string.h>

enum { SETS = 512, CHANGED = 9 };

static uint32_t bit(unsigned point) {
    return 1u << point;
}

/* All moves that numbers can name, of which those of the list are played and no others. */
static void play_all(uint32_t own, uint32_t other, const morris_move *moves, size_t count) {
    unsigned from, to, taken;
    size_t next = 0;
    for (from = 0; from < 10; from++) {
        for (to = 0; to < 10; to++) {
            for (taken = 0; taken < 12; taken++) {
                morris_move move = {(uint8_t)from, (uint8_t)to, (uint8_t)taken, 7, {7, 7}};
                uint32_t a = CHANGED, b = CHANGED;
                int is_listed;
                move.taken = taken == 11 ? MORRIS_NONE : taken == 10 ? 32 : move.taken;
                is_listed = next < count && memcmp(&move, &moves[next], 3) == 0;
                IS(morris_play(MORRIS_GRID, own, other, &move, &a, &b), is_listed ? MORRIS_OK : MORRIS_ILLEGAL);
                IS(a, !is_listed ? CHANGED : taken == 11 ? other : other & ~bit(taken));
                IS(b, is_listed ? (own & ~bit(from)) | bit(to) : CHANGED);
                next += (size_t)is_listed;
            }
        }
    }
    IS(next, count);
}

/* The list is the proved one, but for the values. */
static void list_as_proved(const morris_folder *t, uint32_t own, uint32_t other) {
    static morris_move proved[MORRIS_MOST_MOVES], moves[MORRIS_MOST_MOVES];
    size_t wanted = CHANGED, count = CHANGED, i;
    int32_t status = morris_moves(t->board, t->files, t->n, t->words, t->m, own, other, proved,
                                  MORRIS_MOST_MOVES, &wanted);
    IS(morris_legal_moves(t->board, own, other, moves, MORRIS_MOST_MOVES, &count), status);
    IS(count, wanted);
    if (status != MORRIS_OK) {
        uint32_t a = CHANGED, b = CHANGED;
        IS(morris_play(t->board, own, other, &moves[0], &a, &b), status);
        IS(a * 10 + b, CHANGED * 11);
        return;
    }
    for (i = 0; i < count; i++) {
        IS(memcmp(&moves[i], &proved[i], 3), 0);
        IS(moves[i].pad + moves[i].value.kind + moves[i].value.depth, 0);
    }
    play_all(own, other, moves, count);
    if (count > 0) {
        IS(morris_legal_moves(t->board, own, other, moves, count, &wanted), MORRIS_OK);
        IS(morris_legal_moves(t->board, own, other, moves, count - 1, &wanted), MORRIS_ROOM);
        IS(morris_legal_moves(t->board, own, other, moves, 0, &wanted), MORRIS_ROOM);
        IS(wanted, count);
    }
}

static int compare(const char *path) {
    morris_folder folder;
    uint32_t own, other, none[2] = {0, 0};
    morris_move move = {0, 1, MORRIS_NONE, 0, {0, 0}};
    size_t count;
    IS(morris_open_folder(path, MORRIS_GRID, &folder), MORRIS_OK);
    for (own = 0; own < SETS; own++) {
        for (other = 0; other < SETS; other++) {
            list_as_proved(&folder, own, other);
        }
    }
    morris_close_folder(&folder);
    for (own = 2; own < 300; own++) {
        IS(morris_play(own, 7, 0x38, &move, &none[0], &none[1]), MORRIS_NO_BOARD);
        IS(morris_legal_moves(own, 7, 0x38, &move, 1, &count), MORRIS_NO_BOARD);
    }
    IS(morris_play(MORRIS_GRID, SETS, 0x38, &move, &none[0], &none[1]), MORRIS_OFF_BOARD);
    IS(morris_play(MORRIS_NINE, 7, 1u << 24, &move, &none[0], &none[1]), MORRIS_OFF_BOARD);
    IS(morris_legal_moves(MORRIS_NINE, 7, UINT32_MAX, &move, 1, &count), MORRIS_OFF_BOARD);
    /* The results may be the masks that were handed in by value. */
    own = 0x007;
    other = 0x038;
    move.to = 6;
    IS(morris_play(MORRIS_GRID, own, other, &move, &own, &other), MORRIS_OK);
    IS(own, 0x038);
    IS(other, 0x046);
    return end();
}

static void print_position(uint32_t own, uint32_t other, size_t points) {
    size_t p;
    for (p = 0; p < points; p++) {
        putchar(own >> p & 1u ? 'X' : other >> p & 1u ? 'O' : '.');
    }
}

/* Prints the moves of a position, each with the one after it. */
static int32_t print_moves(uint32_t board, uint32_t own, uint32_t other, size_t points) {
    static morris_move moves[MORRIS_MOST_MOVES];
    size_t count = 0, i;
    int32_t status = morris_legal_moves(board, own, other, moves, MORRIS_MOST_MOVES, &count);
    for (i = 0; i < count && status == MORRIS_OK; i++) {
        uint32_t next_own, next_other;
        status = morris_play(board, own, other, &moves[i], &next_own, &next_other);
        printf("%u-%u", moves[i].from, moves[i].to);
        printf(moves[i].taken == MORRIS_NONE ? " " : "x%u ", moves[i].taken);
        print_position(next_own, next_other, points);
        printf("\n");
    }
    return status;
}

int main(int argc, char **argv) {
    char line[64];
    while (argc == 1 && fgets(line, sizeof line, stdin) != NULL) {
        uint32_t own = 0, other = 0, point;
        size_t points = strcspn(line, "\n");
        if ((points != 24 && points != 9) || strspn(line, "XO.") != points) {
            return 2;
        }
        for (point = 0; point < points; point++) {
            own |= (uint32_t)(line[point] == 'X') << point;
            other |= (uint32_t)(line[point] == 'O') << point;
        }
        printf("%s", line);
        if (print_moves(points == 9 ? MORRIS_GRID : MORRIS_NINE, own, other, points) != MORRIS_OK) {
            return 1;
        }
    }
    return argc == 2 ? compare(argv[1]) : argc != 1;
}
