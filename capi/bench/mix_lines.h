// The lines of clsm_bench that are played through clsm.h, and its draws: the same keys in the same order.
#ifndef CLSM_BENCH_MIX_LINES_H
#define CLSM_BENCH_MIX_LINES_H

#include <cstddef>
#include <cstdint>
#include <vector>

namespace bench {
namespace mixes {

enum class Ask : std::uint8_t { get, put, insert, change, scan, page };
enum class Order { uniform, zipf, one };

// Where the keys are before the time is taken.
enum class Place {
    epoch,      // nothing was merged
    run,        // all in a run of level 1
    half_epoch, // all were put, and then half an epoch of the same ones; the store merges as it likes
};

struct Share {
    Ask ask;
    std::uint32_t percent;
};

struct Line {
    const char *name;
    std::vector<Share> shares; // in a hundred; none: gets, which are drawn as they are made
    Order order;
    Place place;
    std::uint32_t keys, epoch; // at most
    std::uint32_t rows;        // of a scan or a page, at most
    bool is_stepwise;          // a scan is made row by row, a change by a get and a replacement

    bool reads_rows() const;
    bool is_sustained() const { return shares.size() == 1 && shares[0].ask == Ask::put; }
    bool has_whole_scans() const { return rows > 1000; }
    Ask ask(std::uint32_t number) const; // of the calls with this number of a hundred
};

const std::vector<Line> &all_lines();

// A scan is of the keys from key to word, a page of those from key on. A get is to find the word.
struct Call {
    std::uint64_t key, word;
    Ask ask;
};

// PCG XSH RR 64/32, of the stream 1.
class Words {
public:
    explicit Words(std::uint64_t state) : state_(state + increment) { step(); }

    std::uint32_t next() {
        const std::uint64_t state = state_;
        step();
        const auto turn = static_cast<unsigned>(state >> 59);
        const auto word = static_cast<std::uint32_t>(((state >> 18) ^ state) >> 27);
        return (word >> turn) | (word << ((32 - turn) % 32));
    }

private:
    static constexpr std::uint64_t increment = 3;

    void step() { state_ = state_ * 6364136223846793005u + increment; }

    std::uint64_t state_;
};

// A number below the bound, each about as often.
inline std::uint32_t below(std::uint32_t bound, std::uint32_t word) {
    return static_cast<std::uint32_t>((std::uint64_t{word} * bound) >> 32);
}

// The number that stands for a thread in the keys that are loaded.
constexpr std::uint32_t filler = 64;
// The new keys of one thread, which it puts at again and again.
constexpr std::uint32_t new_keys = 65536;

// The key of a thread's write of this index: no other number or index has it.
inline std::uint64_t key_of(std::uint32_t number, std::uint32_t index) {
    const std::uint64_t product = ((std::uint64_t{number} << 32) | index) * 0x9e3779b97f4a7c15u;
    return (product >> 32) | (product << 32);
}

// What all threads of a line call.
class Series {
public:
    // Of so many keys at most. The line outlives it.
    Series(const Line &, std::uint32_t keys);

    const Line &line() const { return line_; }
    std::uint32_t keys() const { return keys_; }
    std::uint32_t epoch() const { return line_.epoch; }
    std::size_t rows() const { return keys_ < line_.rows ? keys_ : line_.rows; }

    // The calls of the thread with this number.
    std::vector<Call> draw(std::uint32_t number, std::uint32_t calls) const;

    // The next get, which is not drawn before.
    Call get(Words &words) const {
        const std::uint32_t drawn = below(keys_, words.next());
        return {key_of(filler, drawn), drawn, Ask::get};
    }

private:
    std::uint32_t draw_index(Words &) const;
    Call draw_range(Words &, Ask) const;
    Call draw_call(Words &, std::uint32_t number, std::uint32_t index) const;

    const Line &line_;
    std::uint32_t keys_;
    std::vector<std::uint64_t> sums_;   // of the weights of all ranks up to each, by Zipf's law
    std::vector<std::uint64_t> sorted_; // the keys, where rows are read
};

} // namespace mixes
} // namespace bench

#endif
