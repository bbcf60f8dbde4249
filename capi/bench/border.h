// The border to C: what a get and a put cost at least.
#ifndef CLSM_BENCH_BORDER_H
#define CLSM_BENCH_BORDER_H

#include "report.h"

#include <string>
#include <vector>

namespace bench {

struct Crossing {
    std::string name, title; // of the way to the store
    Times get, put;
};

// Measures each way so often, in turn, with one thread. The shared library is left out if it is not found.
std::vector<Crossing> measure_border(std::uint64_t repeat);

} // namespace bench

#endif
