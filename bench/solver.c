/* A solver of the usual board, as a baseline for `morris build nine PAIR --classes`: it builds the
 * tables of a pair and of all pairs below it, with one entry per symmetry class, and writes their
 * files. It was written from the rules and docs/FILE_FORMAT.md alone, and shares no code with
 * the crates. No part of the product: nothing in it is proved.
 *
 *     cc -O3 -march=native -fopenmp -o solver bench/solver.c
 *     OMP_NUM_THREADS=4 ./solver 4-4 FOLDER
 *
 * Each pair is solved backwards: a node is an entry, and wave n decides those of depth n. A node
 * knows how many of its quiet moves lead to nodes that aren't won yet, and when captures decide it.
 * Where symmetries leave the own stones in place, entries that these turn into one another are one
 * node, the first of them.
 */
#include <stdint.h>
#include <stdio.h>
#include <stdlib.h>
#include <string.h>
#include <omp.h>

enum { POINTS = 24, SYMMETRIES = 16, MOST = 9, ALL = (1 << POINTS) - 1 };
enum { MOST_PLIES = 1024, MOST_THREADS = 64, NEVER = 65535 };

static uint32_t neighbours[POINTS], mills_through[POINTS][2];
static uint8_t image[SYMMETRIES][POINTS];
/* What each symmetry makes of a set: the image of each of its three bytes. */
static uint32_t byte_map[SYMMETRIES][3][256];
static uint32_t choose[POINTS + 1][MOST + 2];
/* The rank of a set: of its lower half, and of its upper one above so many points. */
static uint32_t low_rank[4096], high_rank[POINTS / 2 + 1][4096];

/* The classes of the sets of so many points. */
static struct {
    uint32_t count;
    /* By the rank of a set: its class, and in the last four bits its canonicalizing symmetry. */
    uint32_t *of;
    uint32_t *representative;
    /* The symmetries that leave the representative in place, as a mask. */
    uint16_t *fixing;
} classes[MOST + 1];

/* The table of a pair, the greater number first. */
struct table {
    uint32_t count, half;
    uint16_t *codes;
};
static struct table tables[MOST + 1][MOST + 1];

struct list {
    uint32_t *items;
    size_t count, room;
};

/* The pair that is solved: what is known of its nodes. */
static struct {
    int greater, lesser;
    struct table *table;
    /* How many quiet moves don't lose yet, times SYMMETRIES; NEVER where that doesn't matter. */
    uint16_t *open;
    /* An odd depth: won by a capture then. Another: not lost before. */
    uint16_t *due;
    struct list later[MOST_THREADS][MOST_PLIES], next[MOST_THREADS];
} pair;

static void *room_for(size_t count, size_t bytes)
{
    void *made = calloc(count ? count : 1, bytes);
    if (!made) {
        fprintf(stderr, "out of memory\n");
        exit(1);
    }
    return made;
}

static void push(struct list *list, uint32_t item)
{
    if (list->count == list->room) {
        list->room = list->room ? 2 * list->room : 64;
        list->items = realloc(list->items, list->room * sizeof item);
        if (!list->items) {
            fprintf(stderr, "out of memory\n");
            exit(1);
        }
    }
    list->items[list->count++] = item;
}

static void drop(struct list *list)
{
    free(list->items);
    *list = (struct list){0};
}

/* ---- sets of points */

static int count(uint32_t set) { return __builtin_popcount(set); }

static uint32_t rank(uint32_t set)
{
    uint32_t low = set & 4095;
    return low_rank[low] + high_rank[count(low)][set >> 12];
}

static uint32_t image_of(int symmetry, uint32_t set)
{
    const uint32_t(*of)[256] = byte_map[symmetry];
    return of[0][set & 255] | of[1][set >> 8 & 255] | of[2][set >> 16];
}

/* The points of a set, renumbered among those of `room`. */
static uint32_t squeeze(uint32_t set, uint32_t room)
{
#ifdef __BMI2__
    return __builtin_ia32_pext_si(set, room);
#else
    uint32_t made = 0;
    for (; set; set &= set - 1) {
        made |= 1u << count(room & ((set & -set) - 1));
    }
    return made;
#endif
}

/* The set of `room` whose points have these numbers there. */
static uint32_t spread(uint32_t numbers, uint32_t room)
{
#ifdef __BMI2__
    return __builtin_ia32_pdep_si(numbers, room);
#else
    uint32_t made = 0;
    for (int at = 0; room; room &= room - 1, at++) {
        made |= numbers >> at & 1 ? room & -room : 0;
    }
    return made;
#endif
}

/* The set of so many points of the first `room` that has this rank. */
static uint32_t set_of(uint32_t rank, int stones, int room)
{
    uint32_t set = 0;
    for (; stones > 0; stones--) {
        do {
            room--;
        } while (choose[room][stones] > rank);
        rank -= choose[room][stones];
        set |= 1u << room;
    }
    return set;
}

/* The next set of as many points. */
static uint32_t next_set(uint32_t set)
{
    uint32_t low = set & -set, next = set + low;
    return next | ((set ^ next) >> 2) / low;
}

static void prepare_board(void)
{
    uint32_t mills[16];
    for (int r = 0; r < 3; r++) {
        for (int k = 0; k < 8; k++) {
            int p = 8 * r + k;
            neighbours[p] |= 1u << (8 * r + (k + 1) % 8) | 1u << (8 * r + (k + 7) % 8);
            if (k % 2) {
                neighbours[p] |= (r < 2 ? 1u << (p + 8) : 0) | (r > 0 ? 1u << (p - 8) : 0);
            } else {
                mills[4 * r + k / 2] = 1u << p | 1u << (p + 1) | 1u << (8 * r + (k + 2) % 8);
            }
            for (int s = 0; s < SYMMETRIES; s++) {
                int place = (s / 4 % 2 ? 2 * (s % 4) - k : k + 2 * (s % 4)) & 7;
                image[s][p] = 8 * (s / 8 ? 2 - r : r) + place;
            }
        }
    }
    for (int i = 0; i < 4; i++) {
        mills[12 + i] = 0x010101u << (2 * i + 1);
    }
    for (int p = 0; p < POINTS; p++) {
        for (int i = 0, found = 0; i < 16; i++) {
            if (mills[i] >> p & 1) {
                mills_through[p][found++] = mills[i];
            }
        }
    }
}

static void prepare_sets(void)
{
    for (int n = 0; n <= POINTS; n++) {
        choose[n][0] = 1;
        for (int k = 1; k <= MOST + 1; k++) {
            choose[n][k] = n ? choose[n - 1][k - 1] + choose[n - 1][k] : 0;
        }
    }
    for (uint32_t half = 0; half < 4096; half++) {
        for (int below = 0; below <= POINTS / 2; below++) {
            int place = below;
            for (uint32_t left = half; left; left &= left - 1) {
                place++;
                if (place <= MOST + 1) {
                    high_rank[below][half] += choose[12 + __builtin_ctz(left)][place];
                    low_rank[half] += below ? 0 : choose[__builtin_ctz(left)][place];
                }
            }
        }
    }
    for (int s = 0; s < SYMMETRIES; s++) {
        for (int part = 0; part < 3; part++) {
            for (int byte = 0; byte < 256; byte++) {
                for (int bit = 0; bit < 8; bit++) {
                    byte_map[s][part][byte] |= byte >> bit & 1 ? 1u << image[s][8 * part + bit] : 0;
                }
            }
        }
    }
}

/* Numbers the classes of the sets of so many points, in the order of their masks. */
static void make_classes(int stones)
{
    uint32_t sets = choose[POINTS][stones], set = (1u << stones) - 1, found = 0;
    classes[stones].of = room_for(sets, sizeof(uint32_t));
    classes[stones].representative = room_for(sets, sizeof(uint32_t));
    classes[stones].fixing = room_for(sets, sizeof(uint16_t));
    for (uint32_t at = 0; at < sets; at++, set = next_set(set)) {
        uint32_t least = set, first = 0, fixing = 0;
        for (int s = 0; s < SYMMETRIES; s++) {
            uint32_t it = image_of(s, set);
            fixing |= (uint32_t)(it == set) << s;
            if (it < least) {
                least = it;
                first = s;
            }
        }
        if (least == set) {
            classes[stones].representative[found] = set;
            classes[stones].fixing[found] = fixing;
            classes[stones].of[at] = found++ << 4;
        } else {
            classes[stones].of[at] = (classes[stones].of[rank(least)] & ~15u) | first;
        }
    }
    classes[stones].count = found;
}

/* ---- entries */

/* The code of a position of a pair below. */
static uint16_t code(uint32_t own, uint32_t other)
{
    int a = count(own), b = count(other);
    struct table *table = &tables[a > b ? a : b][a > b ? b : a];
    uint32_t word = classes[a].of[rank(own)], class = word >> 4;
    uint32_t room = ALL & ~classes[a].representative[class];
    uint32_t at = class * choose[POINTS - a][b] + rank(squeeze(image_of(word & 15, other), room));
    return table->codes[at + (a < b ? table->half : 0)];
}

/* The node of a position of the pair that is solved, and how many symmetries leave the position in
 * place. */
static uint32_t node(uint32_t own, uint32_t other, uint32_t *fixed)
{
    int a = count(own), b = count(other);
    uint32_t word = classes[a].of[rank(own)], class = word >> 4;
    uint32_t room = ALL & ~classes[a].representative[class];
    other = image_of(word & 15, other);
    uint32_t least = rank(squeeze(other, room));
    *fixed = 1;
    for (uint32_t left = classes[a].fixing[class] & ~1u; left; left &= left - 1) {
        uint32_t it = image_of(__builtin_ctz(left), other), at = rank(squeeze(it, room));
        *fixed += it == other;
        least = at < least ? at : least;
    }
    return class * choose[POINTS - a][b] + least + (a == pair.greater ? 0 : pair.table->half);
}

/* ---- moves */

static int in_mill(uint32_t stones, int point)
{
    uint32_t one = mills_through[point][0], two = mills_through[point][1];
    return (one & ~stones) == 0 || (two & ~stones) == 0;
}

/* Where stones of a player with so many may go from a point, or come from. */
static uint32_t reachable(int stones, int point) { return stones > 3 ? neighbours[point] : ALL; }

/* The stones that a capture may take. */
static uint32_t takable_stones(uint32_t other)
{
    uint32_t free = 0;
    for (uint32_t left = other; left; left &= left - 1) {
        free |= in_mill(other, __builtin_ctz(left)) ? 0 : left & -left;
    }
    return free ? free : other;
}

/* ---- a pair */

/* How many quiet moves a position has, times SYMMETRIES, or NEVER where captures keep it from being
 * lost; and the depth at which captures win it, or before which they keep it from being lost.
 * `closing` says where each of the own stones closes a mill. */
static uint16_t look_ahead(uint32_t own, uint32_t other, const uint32_t *closing, uint16_t *due)
{
    uint32_t vacant = ALL & ~(own | other), taken = 0;
    int stones = count(own), quiet = 0, won = 0, lost = 0, drawn = 0;
    for (uint32_t left = own; left; left &= left - 1) {
        int from = __builtin_ctz(left);
        uint32_t ends = reachable(stones, from) & vacant;
        quiet += count(ends & ~closing[from]);
        for (ends &= closing[from]; ends; ends &= ends - 1) {
            if (count(other) == 3) {
                *due = 1;
                return NEVER;
            }
            taken = taken ? taken : takable_stones(other);
            for (uint32_t it = taken; it; it &= it - 1) {
                int found = code(other & ~(it & -it), (own & ~(left & -left)) | (ends & -ends));
                if (found % 2) {
                    won = won && won < found ? won : found;
                } else if (found) {
                    lost = lost > found ? lost : found;
                } else {
                    drawn = 1;
                }
            }
        }
    }
    /* A capture that leads to the depth d, whose code is d + 1, takes d + 1 plies. */
    *due = won ? won : lost;
    return won || drawn ? NEVER : SYMMETRIES * quiet;
}

static void decide(uint32_t at, int depth) { pair.table->codes[at] = depth + 1; }

/* Looks ahead from all nodes whose own stones are of a class. */
static void look_from(int a, int b, uint32_t class, uint32_t first)
{
    uint32_t own = classes[a].representative[class], room = ALL & ~own, numbers = (1u << b) - 1;
    uint32_t sets = choose[POINTS - a][b], at = first + class * sets;
    uint32_t fixed, closing[POINTS] = {0};
    for (uint32_t left = own; left; left &= left - 1) {
        for (uint32_t ends = room; ends; ends &= ends - 1) {
            uint32_t after = (own & ~(left & -left)) | (ends & -ends);
            closing[__builtin_ctz(left)] |= in_mill(after, __builtin_ctz(ends)) ? ends & -ends : 0;
        }
    }
    for (uint32_t i = 0; i < sets; i++, at++, numbers = next_set(numbers)) {
        uint32_t other = spread(numbers, room);
        if (classes[a].fixing[class] != 1 && node(own, other, &fixed) != at) {
            pair.open[at] = NEVER;
            continue;
        }
        pair.open[at] = look_ahead(own, other, closing, &pair.due[at]);
        if (pair.due[at] % 2 || pair.open[at] == 0) {
            push(&pair.later[omp_get_thread_num()][pair.due[at]], at);
        }
    }
}

/* A predecessor, by a quiet move, of a node that was decided at this depth, which this many
 * symmetries leave in place. */
static void reach(uint32_t own, uint32_t other, uint32_t fixed_after, int depth)
{
    int thread = omp_get_thread_num();
    uint32_t fixed, at = node(own, other, &fixed);
    if (depth % 2 == 0) {
        uint16_t *code = &pair.table->codes[at];
        if (*code == 0 && __sync_bool_compare_and_swap(code, 0, depth + 2)) {
            push(&pair.next[thread], at);
        }
        return;
    }
    /* It has as many moves to images of the node as the node's position has predecessors that are
     * images of it, times how many symmetries fix it, divided by how many fix the node's. */
    uint16_t by = SYMMETRIES * fixed / fixed_after;
    if (pair.open[at] != NEVER && __atomic_sub_fetch(&pair.open[at], by, __ATOMIC_RELAXED) == 0) {
        push(&pair.later[thread][pair.due[at] > depth + 1 ? pair.due[at] : depth + 1], at);
    }
}

/* Reaches the predecessors of a node that was decided at this depth. */
static void go_back(uint32_t at, int depth)
{
    int is_first = at < pair.table->half, a = is_first ? pair.greater : pair.lesser;
    int b = pair.greater + pair.lesser - a;
    uint32_t sets = choose[POINTS - a][b], in_half = at - (is_first ? 0 : pair.table->half);
    uint32_t own = classes[a].representative[in_half / sets];
    uint32_t other = spread(set_of(in_half % sets, b, POINTS - a), ALL & ~own);
    uint32_t vacant = ALL & ~(own | other), fixed;
    node(own, other, &fixed);
    for (uint32_t ends = other; ends; ends &= ends - 1) {
        int to = __builtin_ctz(ends);
        if (in_mill(other, to)) {
            continue;
        }
        for (uint32_t from = reachable(b, to) & vacant; from; from &= from - 1) {
            reach((other & ~(ends & -ends)) | (from & -from), own, fixed, depth);
        }
    }
}

/* The nodes that were found in the wave before, and those that come due at this depth. */
static struct list fresh_at(int depth)
{
    struct list fresh = {0};
    for (int thread = 0; thread < MOST_THREADS; thread++) {
        struct list *next = &pair.next[thread], *later = &pair.later[thread][depth];
        for (size_t i = 0; i < next->count; i++) {
            push(&fresh, next->items[i]);
        }
        for (size_t i = 0; i < later->count; i++) {
            if (pair.table->codes[later->items[i]] == 0) {
                decide(later->items[i], depth);
                push(&fresh, later->items[i]);
            }
        }
        drop(next);
        drop(later);
    }
    return fresh;
}

static int is_awaited(int depth)
{
    for (int thread = 0; thread < MOST_THREADS; thread++) {
        for (int later = depth; later < MOST_PLIES; later++) {
            if (pair.later[thread][later].count) {
                return 1;
            }
        }
    }
    return 0;
}

/* Gives the entries that aren't nodes the codes of their nodes. */
static void fill(int a, int b, uint32_t first)
{
    uint32_t sets = choose[POINTS - a][b], fixed;
    for (uint32_t class = 0; class < classes[a].count; class++) {
        uint32_t own = classes[a].representative[class], numbers = (1u << b) - 1;
        if (classes[a].fixing[class] == 1) {
            continue;
        }
        for (uint32_t i = 0; i < sets; i++, numbers = next_set(numbers)) {
            uint32_t it = node(own, spread(numbers, ALL & ~own), &fixed);
            pair.table->codes[first + class * sets + i] = pair.table->codes[it];
        }
    }
}

static void solve(int greater, int lesser)
{
    struct table *table = &tables[greater][lesser];
    int halves = greater == lesser ? 1 : 2;
    table->half = classes[greater].count * choose[POINTS - greater][lesser];
    table->count = table->half;
    if (halves == 2) {
        table->count += classes[lesser].count * choose[POINTS - lesser][greater];
    }
    table->codes = room_for(table->count, sizeof *table->codes);
    memset(&pair, 0, sizeof pair);
    pair.greater = greater;
    pair.lesser = lesser;
    pair.table = table;
    pair.open = room_for(table->count, sizeof *pair.open);
    pair.due = room_for(table->count, sizeof *pair.due);
    for (int half = 0; half < halves; half++) {
        int a = half ? lesser : greater, b = half ? greater : lesser;
#pragma omp parallel for schedule(dynamic, 1)
        for (uint32_t class = 0; class < classes[a].count; class++) {
            look_from(a, b, class, half ? table->half : 0);
        }
    }
    for (int depth = 0;; depth++) {
        struct list fresh = fresh_at(depth);
        if (fresh.count == 0 && !is_awaited(depth)) {
            break;
        }
#pragma omp parallel for schedule(dynamic, 256)
        for (size_t i = 0; i < fresh.count; i++) {
            go_back(fresh.items[i], depth);
        }
        drop(&fresh);
    }
    free(pair.open);
    free(pair.due);
    for (int half = 0; half < halves; half++) {
        fill(half ? lesser : greater, half ? greater : lesser, half ? table->half : 0);
    }
}

/* ---- files */

/* Of SHA-256: the first bits of the fractional parts of the cube roots of the first 64 primes, and
 * of the square roots of the first 8. */
static const uint32_t constants[64] = {
    0x428a2f98, 0x71374491, 0xb5c0fbcf, 0xe9b5dba5, 0x3956c25b, 0x59f111f1, 0x923f82a4, 0xab1c5ed5,
    0xd807aa98, 0x12835b01, 0x243185be, 0x550c7dc3, 0x72be5d74, 0x80deb1fe, 0x9bdc06a7, 0xc19bf174,
    0xe49b69c1, 0xefbe4786, 0x0fc19dc6, 0x240ca1cc, 0x2de92c6f, 0x4a7484aa, 0x5cb0a9dc, 0x76f988da,
    0x983e5152, 0xa831c66d, 0xb00327c8, 0xbf597fc7, 0xc6e00bf3, 0xd5a79147, 0x06ca6351, 0x14292967,
    0x27b70a85, 0x2e1b2138, 0x4d2c6dfc, 0x53380d13, 0x650a7354, 0x766a0abb, 0x81c2c92e, 0x92722c85,
    0xa2bfe8a1, 0xa81a664b, 0xc24b8b70, 0xc76c51a3, 0xd192e819, 0xd6990624, 0xf40e3585, 0x106aa070,
    0x19a4c116, 0x1e376c08, 0x2748774c, 0x34b0bcb5, 0x391c0cb3, 0x4ed8aa4a, 0x5b9cca4f, 0x682e6ff3,
    0x748f82ee, 0x78a5636f, 0x84c87814, 0x8cc70208, 0x90befffa, 0xa4506ceb, 0xbef9a3f7, 0xc67178f2,
};
static const uint32_t first_state[8] = {
    0x6a09e667, 0xbb67ae85, 0x3c6ef372, 0xa54ff53a, 0x510e527f, 0x9b05688c, 0x1f83d9ab, 0x5be0cd19,
};
static uint32_t state[8];

static uint32_t rotate(uint32_t word, int by) { return word >> by | word << (32 - by); }

/* A block of 64 bytes more. */
static void digest_block(const uint8_t *bytes)
{
    uint32_t words[64];
    for (int i = 0; i < 16; i++, bytes += 4) {
        words[i] = (uint32_t)bytes[0] << 24 | bytes[1] << 16 | bytes[2] << 8 | bytes[3];
    }
    for (int i = 16; i < 64; i++) {
        uint32_t a = words[i - 15], b = words[i - 2];
        words[i] = words[i - 16] + (rotate(a, 7) ^ rotate(a, 18) ^ a >> 3) + words[i - 7]
            + (rotate(b, 17) ^ rotate(b, 19) ^ b >> 10);
    }
    uint32_t a = state[0], b = state[1], c = state[2], d = state[3];
    uint32_t e = state[4], f = state[5], g = state[6], h = state[7];
    for (int i = 0; i < 64; i++) {
        uint32_t one = h + ((e & f) ^ (~e & g)) + constants[i] + words[i];
        uint32_t two = (a & b) ^ (a & c) ^ (b & c);
        one += rotate(e, 6) ^ rotate(e, 11) ^ rotate(e, 25);
        two += rotate(a, 2) ^ rotate(a, 13) ^ rotate(a, 22);
        h = g, g = f, f = e, e = d + one, d = c, c = b, b = a, a = one + two;
    }
    state[0] += a, state[1] += b, state[2] += c, state[3] += d;
    state[4] += e, state[5] += f, state[6] += g, state[7] += h;
}

/* The bytes that are still to be written: they are digested block by block. */
static uint8_t held[64];
static uint64_t sent;

static void send_byte(FILE *file, uint8_t byte)
{
    held[sent++ % 64] = byte;
    if (sent % 64 == 0) {
        digest_block(held);
        fwrite(held, 1, 64, file);
    }
}

static void write_file(const char *folder, int greater, int lesser)
{
    struct table *table = &tables[greater][lesser];
    uint8_t header[16] = {'N', 'M', 'M', 'T', 2, 0, greater, lesser}, ending[128] = {0}, digest[32];
    char path[4096];
    snprintf(path, sizeof path, "%s/nine-%d-%d.nmmt", folder, greater, lesser);
    FILE *file = fopen(path, "wb");
    if (!file) {
        perror(path);
        exit(1);
    }
    memcpy(state, first_state, sizeof state);
    sent = 0;
    for (int i = 0; i < 16; i++) {
        send_byte(file, i < 8 ? header[i] : i < 12 ? 0 : table->count >> (8 * (15 - i)));
    }
    for (uint32_t at = 0; at < table->count; at++) {
        send_byte(file, table->codes[at] >> 8);
        send_byte(file, table->codes[at] & 255);
    }
    size_t left = sent % 64, padded = left < 56 ? 64 : 128;
    memcpy(ending, held, left);
    ending[left] = 0x80;
    for (int i = 0; i < 8; i++) {
        ending[padded - 1 - i] = 8 * sent >> (8 * i);
    }
    for (size_t at = 0; at < padded; at += 64) {
        digest_block(ending + at);
    }
    for (int i = 0; i < 32; i++) {
        digest[i] = state[i / 4] >> (24 - 8 * (i % 4));
    }
    fwrite(held, 1, left, file);
    fwrite(digest, 1, 32, file);
    if (fclose(file)) {
        perror(path);
        exit(1);
    }
}

int main(int argc, char **argv)
{
    int greater, lesser;
    if (argc != 3 || sscanf(argv[1], "%d-%d", &greater, &lesser) != 2 || lesser < 3
        || greater < lesser || greater > MOST || omp_get_max_threads() > MOST_THREADS) {
        fprintf(stderr, "solver PAIR FOLDER: a pair such as 4-3, the greater number first\n");
        return 2;
    }
    prepare_board();
    prepare_sets();
    for (int stones = 3; stones <= greater; stones++) {
        make_classes(stones);
    }
    /* The pairs below in the order of their stones, and then of the greater number. */
    for (int stones = 6; stones <= greater + lesser; stones++) {
        for (int a = (stones + 1) / 2; a <= greater && stones - a >= 3; a++) {
            int b = stones - a;
            if (b > lesser && a > lesser) {
                continue;
            }
            solve(a, b);
            write_file(argv[2], a, b);
        }
        /* Captures lead to pairs of one stone less. */
        for (int a = 3; a < stones - 3 && a <= MOST; a++) {
            int b = stones - 1 - a;
            if (b >= 3 && b <= a) {
                free(tables[a][b].codes);
            }
        }
    }
    return 0;
}
