/* Looks positions of the usual board up in table files, as a baseline for `morris lookup` and for
 * the library of embed/: it maps the files of a folder and prints, for each line of the
 * input, the position, its value and its best moves. It was written from docs/FILE_FORMAT.md and
 * the rules. No part of the product: nothing in it is proved, and it trusts its input.
 *
 *     cc -O2 -o lookups bench/lookups.c
 *     ./lookups FOLDER < POSITIONS            prints lines as `morris lookup` does, and on standard
 *                                             error how many codes were read
 *     ./lookups FOLDER values < POSITIONS     without the best moves
 *     ./lookups FOLDER time < POSITIONS       prints the nanoseconds that a value takes
 */
#include <fcntl.h>
#include <stdint.h>
#include <stdio.h>
#include <stdlib.h>
#include <string.h>
#include <sys/mman.h>
#include <sys/stat.h>
#include <time.h>
#include <unistd.h>

enum { POINTS = 24, SYMMETRIES = 16, MOST = 9 };

static uint32_t neighbours[POINTS], mills[16];
static uint8_t image[SYMMETRIES][POINTS];
/* What each symmetry makes of a set: the image of each of its three bytes. */
static uint32_t byte_map[SYMMETRIES][3][256];
static uint64_t choose[POINTS + 1][MOST + 2];
/* For each set of so many points, by its rank: its class and its canonicalizing symmetry, the
 * first one. */
static uint32_t *classes[MOST + 1];
static uint32_t count_of_classes[MOST + 1];
static const uint8_t *files[MOST + 1][MOST + 1];
static const char *folder;
/* How many codes were read. */
static unsigned long long reads;

static int count(uint32_t set) { return __builtin_popcount(set); }

static uint64_t rank(uint32_t set)
{
    uint64_t sum = 0;
    for (int i = 1; set; set &= set - 1) {
        sum += choose[__builtin_ctz(set)][i++];
    }
    return sum;
}

static uint32_t image_of(int symmetry, uint32_t set)
{
    const uint32_t(*of)[256] = byte_map[symmetry];
    return of[0][set & 255] | of[1][set >> 8 & 255] | of[2][set >> 16];
}

static void prepare(void)
{
    for (int n = 0; n <= POINTS; n++) {
        choose[n][0] = 1;
        for (int k = 1; k <= MOST + 1; k++) {
            choose[n][k] = n ? choose[n - 1][k - 1] + choose[n - 1][k] : 0;
        }
    }
    for (int r = 0; r < 3; r++) {
        for (int k = 0; k < 8; k++) {
            int p = 8 * r + k;
            neighbours[p] |= 1u << (8 * r + (k + 1) % 8) | 1u << (8 * r + (k + 7) % 8);
            if (k % 2) {
                neighbours[p] |= (r < 2 ? 1u << (p + 8) : 0) | (r > 0 ? 1u << (p - 8) : 0);
            } else {
                mills[4 * r + k / 2] = 1u << p | 1u << (p + 1) | 1u << (8 * r + (k + 2) % 8);
            }
            for (int s = 0; s < SYMMETRIES; s++) {
                int place = (s / 4 % 2 ? 2 * (s % 4) - k : k + 2 * (s % 4)) & 7;
                image[s][p] = 8 * (s / 8 ? 2 - r : r) + place;
            }
        }
    }
    for (int i = 0; i < 4; i++) {
        mills[12 + i] = 0x010101u << (2 * i + 1);
    }
    for (int s = 0; s < SYMMETRIES; s++) {
        for (int part = 0; part < 3; part++) {
            for (int byte = 0; byte < 256; byte++) {
                for (int bit = 0; bit < 8; bit++) {
                    byte_map[s][part][byte] |= byte >> bit & 1 ? 1u << image[s][8 * part + bit] : 0;
                }
            }
        }
    }
}

/* The classes of the sets of so many points, in the order of ranks, which is that of masks. */
static void make_classes(int stones)
{
    uint32_t *table = malloc(choose[POINTS][stones] * sizeof *table);
    uint32_t set = (1u << stones) - 1, found = 0;
    for (uint64_t at = 0; at < choose[POINTS][stones]; at++) {
        uint32_t least = set, first = 0;
        for (int s = 1; s < SYMMETRIES; s++) {
            uint32_t it = image_of(s, set);
            if (it < least) {
                least = it;
                first = s;
            }
        }
        table[at] = (least == set ? found++ : table[rank(least)] >> 4) << 4 | first;
        uint32_t low = set & -set, next = set + low;
        set = next | ((set ^ next) >> 2) / low;
    }
    classes[stones] = table;
    count_of_classes[stones] = found;
}

static const uint8_t *file_of(int a, int b)
{
    int greater = a > b ? a : b, lesser = a > b ? b : a;
    if (!files[greater][lesser]) {
        char path[4096];
        snprintf(path, sizeof path, "%s/nine-%d-%d.nmmt", folder, greater, lesser);
        int descriptor = open(path, O_RDONLY);
        struct stat about;
        if (descriptor < 0 || fstat(descriptor, &about)) {
            perror(path);
            exit(1);
        }
        files[greater][lesser] = mmap(NULL, about.st_size, PROT_READ, MAP_SHARED, descriptor, 0);
    }
    return files[greater][lesser];
}

/* The points of a set, renumbered among those that aren't in `outside`. */
static uint32_t squeeze(uint32_t set, uint32_t outside)
{
    uint32_t made = 0;
    for (; set; set &= set - 1) {
        int p = __builtin_ctz(set);
        made |= 1u << (p - count(outside & ((1u << p) - 1)));
    }
    return made;
}

/* The code of a position: 0 for a draw, otherwise one more than its depth. */
static int code(uint32_t own, uint32_t other)
{
    int a = count(own), b = count(other);
    reads++;
    if (a < 3) {
        return 1;
    }
    const uint8_t *file = file_of(a, b);
    uint64_t first, sets = choose[POINTS][b];
    if (file[4] == 2) {
        for (int i = 0, stones = a; i < 2; i++, stones = b) {
            if (!classes[stones]) {
                make_classes(stones);
            }
        }
        uint32_t word = classes[a][rank(own)];
        first = word >> 4;
        own = image_of(word & 15, own);
        other = image_of(word & 15, other);
        sets = count_of_classes[b];
    } else {
        first = rank(own);
    }
    uint64_t at = first * choose[POINTS - a][b] + rank(squeeze(other, own));
    if (a < b) {
        at += sets * choose[POINTS - b][a];
    }
    return file[16 + 2 * at] << 8 | file[17 + 2 * at];
}

static int in_mill(uint32_t stones, int point)
{
    for (int i = 0; i < 16; i++) {
        if (mills[i] >> point & 1 && (mills[i] & ~stones) == 0) {
            return 1;
        }
    }
    return 0;
}

/* Prints the moves that lead to a result of this code. */
static void print_best(uint32_t own, uint32_t other, int wanted)
{
    const char *before = ": ";
    uint32_t vacant = 0xffffff & ~(own | other);
    for (uint32_t rest = own; rest; rest &= rest - 1) {
        int from = __builtin_ctz(rest);
        uint32_t ends = count(own) == 3 ? vacant : neighbours[from] & vacant;
        for (; ends; ends &= ends - 1) {
            int to = __builtin_ctz(ends);
            uint32_t after = (own & ~(1u << from)) | 1u << to;
            if (!in_mill(after, to)) {
                if (code(other, after) == wanted) {
                    printf("%s%d-%d", before, from, to);
                    before = " ";
                }
                continue;
            }
            uint32_t takable = 0;
            for (uint32_t it = other; it; it &= it - 1) {
                takable |= in_mill(other, __builtin_ctz(it)) ? 0 : it & -it;
            }
            for (uint32_t it = takable ? takable : other; it; it &= it - 1) {
                if (code(other & ~(it & -it), after) == wanted) {
                    printf("%s%d-%dx%d", before, from, to, __builtin_ctz(it));
                    before = " ";
                }
            }
        }
    }
}

/* The masks of a line. */
static void read_line(const char *line, uint32_t *own, uint32_t *other)
{
    *own = *other = 0;
    for (int p = 0; p < POINTS && line[p]; p++) {
        *own |= line[p] == 'X' ? 1u << p : 0;
        *other |= line[p] == 'O' ? 1u << p : 0;
    }
}

static double now(void)
{
    struct timespec t;
    clock_gettime(CLOCK_MONOTONIC, &t);
    return t.tv_sec + 1e-9 * t.tv_nsec;
}

/* Prints how many nanoseconds the value of a position takes, where all are read before: the least
 * of some passes over them. */
static int print_time(void)
{
    static uint32_t own[1 << 20], other[1 << 20];
    char line[64];
    int count = 0;
    uint64_t sum = 0;
    double least = 1e9;
    while (count < 1 << 20 && fgets(line, sizeof line, stdin)) {
        read_line(line, &own[count], &other[count]);
        count++;
    }
    for (int pass = 0; pass < 5; pass++) {
        double began = now();
        for (int i = 0; i < count; i++) {
            sum += code(own[i], other[i]);
        }
        double took = now() - began;
        least = took < least ? took : least;
    }
    printf("%.1f %llu\n", 1e9 * least / count, (unsigned long long)sum);
    return 0;
}

int main(int argc, char **argv)
{
    char line[64];
    if (argc < 2 || argc > 3) {
        fprintf(stderr, "lookups FOLDER [values | time]\n");
        return 2;
    }
    folder = argv[1];
    prepare();
    if (argc == 3 && !strcmp(argv[2], "time")) {
        return print_time();
    }
    while (fgets(line, sizeof line, stdin)) {
        uint32_t own, other;
        read_line(line, &own, &other);
        int found = code(own, other);
        printf("%.24s ", line);
        if (found == 0) {
            printf("draw");
        } else {
            printf("%s in %d", found % 2 ? "lost" : "won", found - 1);
        }
        if (argc == 2 && found != 1) {
            print_best(own, other, found ? found - 1 : 0);
        }
        printf("\n");
    }
    fprintf(stderr, "%llu\n", reads);
    return 0;
}
