// The workloads, and the calls that they make.
#ifndef CLSM_BENCH_WORKLOAD_H
#define CLSM_BENCH_WORKLOAD_H

#include "random.h"

#include <cstddef>
#include <cstdint>
#include <vector>

namespace bench {

enum class Act : std::uint8_t {
    get,
    put,
    add,        // 1 to the word, in one step
    remove,
    scan,       // the next rows from a key on
    walk,       // the next rows behind the last walk of the thread
    insert,     // put at the next key that is not there
    get_recent, // get of one of the keys that were inserted last
    get_many,   // the key is one of those that the thread reads next, all at one time
    scan_down,  // the next rows from a key down
    transfer,   // of 1 from the key's word to another one's, in one step
};

enum class Layout { dense, scattered };
enum class Draw { uniform, hot, missing, zipf, recent, rising };
enum class Beside { nobody, writer, scanner };

struct Share {
    Act act;
    unsigned percent;
};

struct Workload {
    const char *name;
    Share first, second;
    Draw draw;
    Layout layout;
    bool is_loaded;   // with all keys, else the store is empty
    std::size_t rows; // of a scan or a walk, or keys that are read at one time
    Beside beside;    // another thread, whose calls are not counted

    bool has(Act act) const;
    // Whether its calls write words that depend on the order of the calls.
    bool puts() const { return has(Act::put) || beside == Beside::writer; }
};

const std::vector<Workload> &all_workloads();

// One call. The word is what a put writes, or the key that a transfer goes to; get_recent has as its
// key how many keys were inserted later.
struct Step {
    std::uint64_t key, word;
    Act act;
};

// The key of an index. Dense keys are even.
inline std::uint64_t key_of(Layout layout, std::uint64_t index) {
    return layout == Layout::dense ? 2 * index : mix(index);
}

// The upper half of a word tells its key; the lower half, the version, which write it was.
constexpr std::uint64_t tags = 0xffffffff00000000u, words = UINT64_MAX;

inline std::uint64_t word_of(std::uint64_t key, std::uint64_t version) { return (mix(~key) & tags) | version; }

// The lower half of an account's word before all transfers: so much that none reaches the upper half.
constexpr std::uint64_t balance = std::uint64_t{1} << 31;

// What one thread is to do.
struct Part {
    std::uint64_t thread, threads, seed;
    std::size_t calls;
};

// The steps of a part, on so many keys; the ranks are of as many.
std::vector<Step> draw_steps(const Workload &, const Zipf &ranks, std::uint64_t keys, const Part &);
// The steps that load all keys of the workload, in an order of chance.
std::vector<Step> draw_load(const Workload &, std::uint64_t keys);
// The steps of the writer beside.
std::vector<Step> draw_beside(Layout, std::uint64_t keys, std::uint64_t seed);

} // namespace bench

#endif
