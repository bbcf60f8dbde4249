// A store that takes part, whatever it is.
#ifndef CLSM_BENCH_ENTRANT_H
#define CLSM_BENCH_ENTRANT_H

#include "workload.h"

#include <memory>
#include <stdexcept>
#include <string>
#include <vector>

namespace bench {

// What ends the benchmark.
struct Failure : std::runtime_error {
    using std::runtime_error::runtime_error;
};

// What all threads do in one run.
struct Round {
    const Workload *workload;
    std::uint64_t keys;                    // that are there before it
    std::vector<std::vector<Step>> steps;  // of each thread
    std::vector<Step> beside;              // of the writer beside, again and again
    std::uint64_t mask;                    // the part of words that counts as an answer
};

struct Outcome {
    double nanoseconds = 0;    // from the first call to the end of the last
    std::uint64_t calls = 0;   // of a walk the rows, of reads of many keys the keys
    std::uint64_t answers = 0; // their checksum
};

class Entrant {
public:
    virtual ~Entrant() = default;
    // What --stores calls it, and the head of its column.
    virtual const char *name() const = 0;
    virtual const char *title() const = 0;
    virtual bool plays(const Workload &) const = 0;
    // Opens an empty store with room for so many keys.
    virtual void open(std::size_t keys) = 0;
    virtual void close() = 0;
    // Makes the calls, of which the answers do not matter.
    virtual void load(const std::vector<Step> &) = 0;
    virtual Outcome play(const Round &) = 0;
    // Puts the keys back that a round removed.
    virtual void put_back(const Round &) = 0;
    // The checksum of all rows.
    virtual std::uint64_t rows(std::uint64_t mask) = 0;
    // The sum of all words, modulo 2^64.
    virtual std::uint64_t sum() = 0;
};

// Each is null where the store's package was not installed when this was built.
std::unique_ptr<Entrant> make_clsm();
std::unique_ptr<Entrant> make_clsm_4096(); // with epochs of so many writes
std::unique_ptr<Entrant> make_clsm_16384();
std::unique_ptr<Entrant> make_clsm_65536();
std::unique_ptr<Entrant> make_clsm_plain(); // keys one by one, rows upwards
std::unique_ptr<Entrant> make_leveldb();
std::unique_ptr<Entrant> make_lmdb();
std::unique_ptr<Entrant> make_tbb();
std::unique_ptr<Entrant> make_locked_map();

} // namespace bench

#endif
