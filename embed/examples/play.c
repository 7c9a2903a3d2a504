/* Plays a game from a position on, for both players: play FOLDER POSITION. It prints each move with
 * the position after it, until the game is over or a position comes back.
 *
 * `choose` writes out what `morris_best` does. At a win it takes the move that wins soonest, at a
 * loss the one that loses latest. Moves that keep a draw are all alike to a table: of these it takes
 * one after which the opponent has the fewest moves that keep it too. */
#include "morris.h"

#include <stdio.h>
#include <string.h>

/* A game by these rules is over or repeats itself long before. */
enum { MOST_PLIES = 1000 };

struct game {
    const morris_tables *tables;
    uint32_t board, points;
    uint32_t own, other; /* the player to move comes first */
};

/* How good a value is for the player who has it. */
static int32_t score(morris_value value) {
    switch (value.kind) {
    case MORRIS_WON: return 100000 - value.depth;
    case MORRIS_LOST: return value.depth - 100000;
    default: return 0;
    }
}

/* How many moves that keep a draw the opponent has after a move. */
static int32_t count_replies(const struct game *game, const morris_move *move, size_t *found) {
    static morris_move moves[MORRIS_MOST_MOVES];
    uint32_t own, other;
    size_t count = 0, i;
    int32_t status = morris_play(game->board, game->own, game->other, move, &own, &other);
    if (status == MORRIS_OK) {
        status = morris_moves_of(game->tables, own, other, moves, MORRIS_MOST_MOVES, &count);
    }
    for (*found = 0, i = 0; i < count; i++) {
        *found += moves[i].value.kind == MORRIS_DRAW;
    }
    return status;
}

/* The first of the best moves; at a draw of those after which the fewest moves keep it. */
static int32_t choose(const struct game *game, morris_move *chosen) {
    static morris_move moves[MORRIS_MOST_MOVES];
    size_t count = 0, least = 0, replies = 0, i;
    int32_t status = morris_moves_of(game->tables, game->own, game->other, moves,
                                     MORRIS_MOST_MOVES, &count);
    if (status == MORRIS_OK && count == 0) {
        return MORRIS_OVER;
    }
    for (i = 0; i < count && status == MORRIS_OK; i++) {
        int32_t better = i == 0 ? 1 : score(moves[i].value) - score(chosen->value);
        if (better >= 0 && moves[i].value.kind == MORRIS_DRAW) {
            status = count_replies(game, &moves[i], &replies);
        }
        if (better > 0 || (better == 0 && replies < least)) {
            *chosen = moves[i];
            least = replies;
        }
    }
    return status;
}

static void print_ply(const struct game *game, const morris_move *move, int is_first_to_move) {
    uint32_t x = is_first_to_move ? game->own : game->other;
    uint32_t o = is_first_to_move ? game->other : game->own, p;
    printf("%u-%u", move->from, move->to);
    printf(move->taken == MORRIS_NONE ? " " : "x%u ", move->taken);
    for (p = 0; p < game->points; p++) {
        putchar(x >> p & 1u ? 'X' : o >> p & 1u ? 'O' : '.');
    }
    putchar('\n');
}

/* Plays on until there is no move, or a position comes back. */
static int32_t play(struct game *game) {
    uint32_t seen[MOST_PLIES][2];
    int plies, i;
    for (plies = 0; plies < MOST_PLIES; plies++) {
        morris_move move;
        int32_t status = choose(game, &move);
        if (status != MORRIS_OK) {
            return status;
        }
        seen[plies][0] = game->own;
        seen[plies][1] = game->other;
        status = morris_play(game->board, game->own, game->other, &move, &game->own, &game->other);
        if (status != MORRIS_OK) {
            return status;
        }
        print_ply(game, &move, plies % 2 == 1);
        for (i = 0; i <= plies; i++) {
            if (seen[i][0] == game->own && seen[i][1] == game->other) {
                printf("the position comes back: a draw\n");
                return MORRIS_OK;
            }
        }
    }
    printf("no end within %d plies\n", MOST_PLIES);
    return MORRIS_OK;
}

int main(int argc, char **argv) {
    struct game game = {NULL, 0, 0, 0, 0};
    morris_tables *tables;
    size_t points = argc == 3 ? strlen(argv[2]) : 0;
    int32_t status;
    uint32_t p;
    if ((points != 24 && points != 9) || strspn(argv[2], "XO.") != points) {
        fprintf(stderr, "play FOLDER POSITION, which is 24 or 9 characters X, O and .\n");
        return 2;
    }
    for (p = 0; p < points; p++) {
        game.own |= (uint32_t)(argv[2][p] == 'X') << p;
        game.other |= (uint32_t)(argv[2][p] == 'O') << p;
    }
    game.points = (uint32_t)points;
    game.board = points == 9 ? MORRIS_GRID : MORRIS_NINE;
    game.tables = tables = morris_open(argv[1], game.board, &status);
    if (status == MORRIS_OK) {
        status = play(&game);
    }
    if (status == MORRIS_OVER) {
        printf("the game is over: who is to move has lost\n");
    } else if (status != MORRIS_OK) {
        fprintf(stderr, "%s\n", morris_last_fault()->text);
    }
    morris_close(tables);
    return status != MORRIS_OK && status != MORRIS_OVER;
}
