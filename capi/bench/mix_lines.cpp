#include "mix_lines.h"

#include <algorithm>
#include <cmath>
#include <limits>

namespace bench {
namespace mixes {

namespace {

constexpr std::uint32_t any = std::numeric_limits<std::uint32_t>::max();
constexpr std::uint32_t large = 65536, small = 4096, some_rows = 16;
constexpr std::uint32_t few_keys = 64, whole_keys = 10000;

const std::vector<Share> only_gets = {}, only_puts = {{Ask::put, 100}}, only_scans = {{Ask::scan, 100}},
                         mostly_scans = {{Ask::scan, 95}, {Ask::put, 5}},
                         mostly_pages = {{Ask::page, 95}, {Ask::insert, 5}},
                         mostly_gets = {{Ask::get, 95}, {Ask::put, 5}}, halves = {{Ask::get, 50}, {Ask::put, 50}},
                         all_calls = {{Ask::scan, 10}, {Ask::get, 40}, {Ask::change, 10}, {Ask::put, 40}};

Line mix_of(const char *name, const std::vector<Share> &shares, Order order) {
    return {name, shares, order, Place::half_epoch, any, large, some_rows, false};
}

Line few(const char *name, std::uint32_t epoch) {
    return {name, all_calls, Order::uniform, Place::half_epoch, few_keys, epoch, some_rows, false};
}

Line whole(const char *name) {
    return {name, all_calls, Order::uniform, Place::half_epoch, whole_keys, large, any, false};
}

Line gets_of(const char *name, Place place) {
    return {name, only_gets, Order::uniform, place, place == Place::epoch ? large : any, large, some_rows, false};
}

Line stepwise(Line line) {
    line.is_stepwise = true;
    return line;
}

const std::vector<Line> table = {
    gets_of("gets present epoch", Place::epoch),
    gets_of("gets present runs", Place::run),
    mix_of("scans of 16", only_scans, Order::uniform),
    stepwise(mix_of("scans of 16, stepwise", only_scans, Order::uniform)),
    mix_of("scans 95, puts 5", mostly_scans, Order::uniform),
    stepwise(mix_of("scans 95, puts 5, stepwise", mostly_scans, Order::uniform)),
    mix_of("pages 95, inserts 5", mostly_pages, Order::uniform),
    mix_of("gets 95, puts 5, uniform", mostly_gets, Order::uniform),
    mix_of("gets 95, puts 5, Zipf", mostly_gets, Order::zipf),
    mix_of("gets 50, puts 50, uniform", halves, Order::uniform),
    mix_of("gets 50, puts 50, Zipf", halves, Order::zipf),
    mix_of("gets 50, puts 50, one key", halves, Order::one),
    few("all calls, 64 keys, 65,536 cells", large),
    stepwise(few("all calls, 64 keys, 65,536 cells, stepwise", large)),
    few("all calls, 64 keys, 4,096 cells", small),
    stepwise(few("all calls, 64 keys, 4,096 cells, stepwise", small)),
    whole("all calls, 10,000 keys, whole scans"),
    stepwise(whole("all calls, 10,000 keys, whole scans, stepwise")),
    mix_of("puts sustained, uniform", only_puts, Order::uniform),
    mix_of("puts sustained, Zipf", only_puts, Order::zipf),
};

std::vector<std::uint64_t> sums_of_weights(std::uint32_t keys) {
    constexpr double exponent = 0.99, first_weight = 1099511627776.0;
    std::vector<std::uint64_t> sums;
    std::uint64_t sum = 0;
    for (std::uint32_t rank = 1; rank <= keys; rank++) {
        sum += static_cast<std::uint64_t>(first_weight / std::pow(static_cast<double>(rank), exponent));
        sums.push_back(sum);
    }
    return sums;
}

std::vector<std::uint64_t> sorted_keys(std::uint32_t keys) {
    std::vector<std::uint64_t> sorted;
    sorted.reserve(keys);
    for (std::uint32_t index = 0; index < keys; index++) sorted.push_back(key_of(filler, index));
    std::sort(sorted.begin(), sorted.end());
    return sorted;
}

// A number below the bound, by 32 drawn bits.
std::uint64_t point_below(std::uint64_t bound, std::uint32_t word) {
    return (bound >> 32) * word + (((bound & 0xffffffffu) * word) >> 32);
}

} // namespace

Ask Line::ask(std::uint32_t number) const {
    for (const Share &share : shares) {
        if (number < share.percent) return share.ask;
        number -= share.percent;
    }
    return Ask::get;
}

bool Line::reads_rows() const {
    return std::any_of(shares.begin(), shares.end(),
                       [](const Share &share) { return share.ask == Ask::scan || share.ask == Ask::page; });
}

const std::vector<Line> &all_lines() { return table; }

Series::Series(const Line &line, std::uint32_t keys)
    : line_(line), keys_(std::min(keys, line.keys)), sums_(sums_of_weights(line.order == Order::zipf ? keys_ : 0)),
      sorted_(sorted_keys(line.reads_rows() ? keys_ : 0)) {}

std::uint32_t Series::draw_index(Words &words) const {
    constexpr std::uint64_t scatter = 2654435761; // a prime above the most keys
    const std::uint32_t word = words.next();
    switch (line_.order) {
    case Order::uniform: return below(keys_, word);
    case Order::one: return 0;
    case Order::zipf: break;
    }
    const std::uint64_t point = point_below(sums_.back(), word);
    const auto place = std::upper_bound(sums_.begin(), sums_.end(), point);
    return static_cast<std::uint32_t>(static_cast<std::uint64_t>(place - sums_.begin()) * scatter % keys_);
}

Call Series::draw_range(Words &words, Ask ask) const {
    const auto starts = static_cast<std::uint32_t>(sorted_.size() - rows() + 1);
    const std::size_t first = below(starts, words.next());
    return {sorted_[first], sorted_[first + rows() - 1], ask};
}

Call Series::draw_call(Words &words, std::uint32_t number, std::uint32_t index) const {
    const Ask ask = line_.ask(below(100, words.next()));
    const std::uint32_t drawn = draw_index(words);
    switch (ask) {
    case Ask::scan:
    case Ask::page: return draw_range(words, ask);
    case Ask::insert: return {key_of(number, index % new_keys), index, ask};
    case Ask::get:
    case Ask::put:
    case Ask::change: break;
    }
    return {key_of(filler, drawn), drawn, ask};
}

std::vector<Call> Series::draw(std::uint32_t number, std::uint32_t calls) const {
    Words words(number);
    std::vector<Call> drawn;
    drawn.reserve(calls);
    for (std::uint32_t index = 0; index < calls; index++) drawn.push_back(draw_call(words, number, index));
    return drawn;
}

} // namespace mixes
} // namespace bench
