// The lines of clsm_bench, each call through clsm.h: what a call through C takes beside the same one inside.
#ifndef CLSM_BENCH_MIXES_H
#define CLSM_BENCH_MIXES_H

#include "options.h"

#include <ostream>

namespace bench {

// Plays each line that is chosen on so many threads, and prints it as clsm_bench does.
void measure_mixes(const Options &, std::ostream &out);

} // namespace bench

#endif
