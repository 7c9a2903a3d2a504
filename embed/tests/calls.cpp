// The header in C++, and calls from several threads at once: calls FOLDER.
#include "morris_folder.h"

#include <cstdio>
#include <thread>
#include <vector>

int main(int argc, char **argv) {
    morris_folder tables;
    if (argc != 2 || morris_open_folder(argv[1], MORRIS_GRID, &tables) != MORRIS_OK) {
        return 2;
    }
    std::vector<unsigned long> sums(4);
    std::vector<std::thread> threads;
    for (auto &sum : sums) {
        threads.emplace_back([&tables, &sum] {
            for (uint32_t own = 0; own < 512; own++) {
                for (uint32_t other = 0; other < 512; other++) {
                    morris_value value{};
                    auto status = morris_lookup(tables.board, tables.files, tables.n, tables.words, tables.m, own,
                                                other, &value);
                    sum = 31 * sum + status + value.kind + value.depth;
                }
            }
        });
    }
    for (auto &thread : threads) {
        thread.join();
    }
    morris_close_folder(&tables);
    for (auto sum : sums) {
        if (sum != sums[0]) {
            return 1;
        }
    }
    std::puts("all right");
}
