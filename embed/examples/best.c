/* Prints the value of a position and its first best move: best FOLDER POSITION. */
#include "morris.h"

#include <stdio.h>
#include <string.h>

static void print_answer(morris_value value, const morris_move *best) {
    static const char *kinds[] = {"draw", "won", "lost"};
    printf("%s", kinds[value.kind]);
    printf(value.kind == MORRIS_DRAW ? "\n" : " in %u\n", value.depth);
    if (best != NULL) {
        printf("%u-%u", best->from, best->to);
        printf(best->taken == MORRIS_NONE ? "\n" : "x%u\n", best->taken);
    }
}

/* The first of the moves that have the value of the position, or null where the game is over. */
static const morris_move *first_best(const morris_move *moves, size_t count, morris_value value) {
    size_t i;
    for (i = 0; i < count; i++) {
        if (moves[i].value.kind == value.kind && moves[i].value.depth == value.depth) {
            return &moves[i];
        }
    }
    return NULL;
}

int main(int argc, char **argv) {
    static morris_move moves[MORRIS_MOST_MOVES];
    morris_tables *tables;
    morris_value value;
    uint32_t own = 0, other = 0, p;
    size_t points = argc == 3 ? strlen(argv[2]) : 0, count;
    int32_t status;
    if ((points != 24 && points != 9) || strspn(argv[2], "XO.") != points) {
        fprintf(stderr, "best FOLDER POSITION, which is 24 or 9 characters X, O and .\n");
        return 2;
    }
    for (p = 0; p < points; p++) {
        own |= (uint32_t)(argv[2][p] == 'X') << p;
        other |= (uint32_t)(argv[2][p] == 'O') << p;
    }
    tables = morris_open(argv[1], points == 9 ? MORRIS_GRID : MORRIS_NINE, &status);
    if (status == MORRIS_OK) {
        status = morris_value_of(tables, own, other, &value);
    }
    if (status == MORRIS_OK) {
        status = morris_moves_of(tables, own, other, moves, MORRIS_MOST_MOVES, &count);
    }
    if (status == MORRIS_OK) {
        print_answer(value, first_best(moves, count, value));
    } else {
        fprintf(stderr, "%s\n", morris_last_fault()->text);
    }
    morris_close(tables);
    return status != MORRIS_OK;
}
