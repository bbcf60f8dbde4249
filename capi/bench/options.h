#ifndef CLSM_BENCH_OPTIONS_H
#define CLSM_BENCH_OPTIONS_H

#include <cstdint>
#include <string>
#include <vector>

namespace bench {

struct Options {
    std::vector<std::string> workloads, stores; // empty: all
    std::vector<std::uint64_t> threads = {1, 2, 4};
    std::uint64_t keys = 1'000'000, operations = 200'000, repeat = 5;
    // Of mixes: the name of the only line, or none; keys; calls of a thread, or 0: by the line.
    std::string line;
    std::uint64_t keys_of_mixes = 32'768, calls = 0;
    std::string csv; // the name of a file, or none
    bool help = false;
};

extern const char *const usage;

// Throws a Failure that says which argument is wrong.
Options read_options(const std::vector<std::string> &arguments);

// Whether the list is empty or has the name.
bool is_chosen(const std::vector<std::string> &list, const std::string &name);

} // namespace bench

#endif
