/* Answers positions as `morris lookup --moves` does, so that the two can be compared: answers
 * FOLDER reads positions of one board from standard input, one a line, and ends at what is none. A
 * status stands in the place of an answer that was refused. It is C and C++ alike. */
#include "morris.h"

#include <stdio.h>
#include <string.h>

static void print_value(morris_value value) {
    if (value.kind == MORRIS_DRAW) {
        printf("draw");
    } else {
        printf("%s in %u", value.kind == MORRIS_WON ? "won" : "lost", value.depth);
    }
}

static void print_move(const morris_move *m) {
    printf("%u-%u", m->from, m->to);
    if (m->taken != MORRIS_NONE) {
        printf("x%u", m->taken);
    }
}

static int32_t answer(const morris_tables *tables, uint32_t own, uint32_t other) {
    static morris_move moves[MORRIS_MOST_MOVES];
    const char *before = ": ";
    morris_value value;
    size_t count = 0, i;
    int32_t status = morris_value_of(tables, own, other, &value);
    if (status == MORRIS_OK) {
        status = morris_moves_of(tables, own, other, moves, MORRIS_MOST_MOVES, &count);
    }
    if (status != MORRIS_OK) {
        return status;
    }
    printf(" ");
    print_value(value);
    for (i = 0; i < count; i++) {
        if (moves[i].value.kind == value.kind && moves[i].value.depth == value.depth) {
            printf("%s", before);
            print_move(&moves[i]);
            before = " ";
        }
    }
    printf("\n");
    for (i = 0; i < count; i++) {
        printf("  ");
        print_move(&moves[i]);
        printf(" ");
        print_value(moves[i].value);
        printf("\n");
    }
    return MORRIS_OK;
}

int main(int argc, char **argv) {
    morris_tables *tables = NULL;
    char line[64];
    while (argc == 2 && fgets(line, sizeof line, stdin) != NULL) {
        uint32_t own = 0, other = 0, point;
        size_t points = strcspn(line, "\n");
        int32_t status;
        line[points] = '\0';
        if ((points != 24 && points != 9) || strspn(line, "XO.") != points) {
            return 2;
        }
        for (point = 0; point < points; point++) {
            own |= (uint32_t)(line[point] == 'X') << point;
            other |= (uint32_t)(line[point] == 'O') << point;
        }
        if (tables == NULL) {
            tables = morris_open(argv[1], points == 9 ? MORRIS_GRID : MORRIS_NINE, NULL);
        }
        if (tables == NULL) {
            return 1;
        }
        printf("%s", line);
        status = answer(tables, own, other);
        if (status != MORRIS_OK) {
            printf(": status %d\n", (int)status);
        }
    }
    morris_close(tables);
    return argc == 2 ? 0 : 2;
}
