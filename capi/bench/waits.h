// How long single calls take beside what makes them wait.
#ifndef CLSM_BENCH_WAITS_H
#define CLSM_BENCH_WAITS_H

#include "options.h"
#include "report.h"

#include <ostream>

namespace bench {

// Plays each scene on so many writers, over stores of so many keys, and prints a line of each.
void measure_waits(const Options &, std::ostream &out);

} // namespace bench

#endif
