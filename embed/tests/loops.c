/* Asks for moves and values again and again until its input ends: loops FOLDER, which has the
 * tables of Grid. It says when it has begun, and how it went: another copy of the library that it is
 * linked to is installed meanwhile. */
#include "check.h"
#include "morris.h"

#include <pthread.h>

static volatile int is_over = 0;

static void *ask(void *given) {
    const morris_tables *tables = given;
    static morris_move moves[MORRIS_MOST_MOVES];
    const uint32_t own = 0x007, other = 0x038;
    while (!is_over) {
        morris_value value;
        size_t count, listed;
        IS(morris_value_of(tables, own, other, &value), MORRIS_OK);
        IS(morris_moves_of(tables, own, other, moves, MORRIS_MOST_MOVES, &count), MORRIS_OK);
        IS(morris_legal_moves(MORRIS_GRID, own, other, moves, MORRIS_MOST_MOVES, &listed), 0);
        IS(count, listed);
        IS(morris_value_of(tables, own, own, &value), MORRIS_OVERLAP);
        IS(morris_last_fault()->status, MORRIS_OVERLAP);
    }
    return NULL;
}

int main(int argc, char **argv) {
    morris_tables *tables = argc == 2 ? morris_open(argv[1], MORRIS_GRID, NULL) : NULL;
    pthread_t thread;
    if (tables == NULL || pthread_create(&thread, NULL, ask, tables) != 0) {
        return 2;
    }
    puts("begun");
    fflush(stdout);
    while (getchar() != EOF) {
    }
    is_over = 1;
    IS(pthread_join(thread, NULL), 0);
    morris_close(tables);
    return end();
}
