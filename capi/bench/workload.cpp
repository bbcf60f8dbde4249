#include "workload.h"

#include <algorithm>
#include <utility>

namespace bench {

namespace {

constexpr Share nothing = {Act::get, 0};
constexpr std::size_t beside_steps = 65536;

// YCSB's A to F, then those of db_bench, then others.
const std::vector<Workload> table = {
    {"A", {Act::get, 50}, {Act::put, 50}, Draw::zipf, Layout::scattered, true, 0, Beside::nobody},
    {"B", {Act::get, 95}, {Act::put, 5}, Draw::zipf, Layout::scattered, true, 0, Beside::nobody},
    {"C", {Act::get, 100}, nothing, Draw::zipf, Layout::scattered, true, 0, Beside::nobody},
    {"D", {Act::get_recent, 95}, {Act::insert, 5}, Draw::recent, Layout::scattered, true, 0, Beside::nobody},
    {"E", {Act::scan, 95}, {Act::insert, 5}, Draw::zipf, Layout::scattered, true, 16, Beside::nobody},
    {"F", {Act::get, 50}, {Act::add, 50}, Draw::zipf, Layout::scattered, true, 0, Beside::nobody},
    {"fillseq", {Act::put, 100}, nothing, Draw::rising, Layout::dense, false, 0, Beside::nobody},
    {"fillrandom", {Act::put, 100}, nothing, Draw::uniform, Layout::dense, false, 0, Beside::nobody},
    {"overwrite", {Act::put, 100}, nothing, Draw::uniform, Layout::dense, true, 0, Beside::nobody},
    {"readrandom", {Act::get, 100}, nothing, Draw::uniform, Layout::dense, true, 0, Beside::nobody},
    {"readhot", {Act::get, 100}, nothing, Draw::hot, Layout::dense, true, 0, Beside::nobody},
    {"readmissing", {Act::get, 100}, nothing, Draw::missing, Layout::dense, true, 0, Beside::nobody},
    {"readseq", {Act::walk, 100}, nothing, Draw::rising, Layout::dense, true, 1000, Beside::nobody},
    {"seekrandom", {Act::scan, 100}, nothing, Draw::uniform, Layout::dense, true, 1, Beside::nobody},
    {"deleterandom", {Act::remove, 100}, nothing, Draw::uniform, Layout::dense, true, 0, Beside::nobody},
    {"readwhilewriting", {Act::get, 100}, nothing, Draw::uniform, Layout::dense, true, 0, Beside::writer},
    {"readwhilescanning", {Act::get, 100}, nothing, Draw::uniform, Layout::dense, true, 1000, Beside::scanner},
    {"multiget", {Act::get_many, 100}, nothing, Draw::uniform, Layout::dense, true, 16, Beside::nobody},
    {"transfers", {Act::transfer, 100}, nothing, Draw::uniform, Layout::dense, true, 0, Beside::nobody},
    {"readreverse", {Act::scan_down, 100}, nothing, Draw::uniform, Layout::dense, true, 16, Beside::nobody},
    {"seeklast", {Act::scan_down, 100}, nothing, Draw::missing, Layout::dense, true, 1, Beside::nobody},
};

std::uint64_t draw_index(Draw draw, const Zipf &ranks, std::uint64_t keys, const Part &part, std::uint64_t i,
                         Random &random) {
    switch (draw) {
    case Draw::uniform:
    case Draw::missing: return random.below(keys);
    case Draw::hot: return random.below((keys + 99) / 100);
    case Draw::zipf: return mix(ranks.rank(random)) % keys;
    case Draw::recent: return std::min(ranks.rank(random), keys - 1);
    case Draw::rising: return (i * part.threads + part.thread) % keys;
    }
    return 0;
}

// How many steps make so many calls, walk so many rows, or read so many keys: full walks and reads.
std::size_t steps_of(const Workload &workload, std::size_t calls) {
    if (workload.has(Act::walk)) return (calls + workload.rows - 1) / workload.rows;
    if (workload.has(Act::get_many)) return (calls + workload.rows - 1) / workload.rows * workload.rows;
    return calls;
}

Step draw_step(const Workload &workload, std::uint64_t keys, std::uint64_t index, std::uint64_t version,
               Random &random) {
    const Share &share = random.below(100) < workload.first.percent ? workload.first : workload.second;
    if (share.act == Act::get_recent) return {index, 0, share.act};
    const std::uint64_t key = key_of(workload.layout, index);
    if (workload.draw == Draw::missing) return {key + 1, 0, share.act};
    if (share.act == Act::transfer) {
        const std::uint64_t other = (index + 1 + random.below(keys - 1)) % keys;
        return {key, key_of(workload.layout, other), share.act};
    }
    return {key, word_of(key, version), share.act};
}

} // namespace

bool Workload::has(Act act) const {
    return (first.act == act && first.percent > 0) || (second.act == act && second.percent > 0);
}

const std::vector<Workload> &all_workloads() { return table; }

std::vector<Step> draw_steps(const Workload &workload, const Zipf &ranks, std::uint64_t keys, const Part &part) {
    const std::size_t calls = steps_of(workload, part.calls);
    Random random(part.seed + part.thread);
    std::vector<Step> steps;
    steps.reserve(calls);
    for (std::uint64_t i = 0; i < calls; i++) {
        const std::uint64_t index = draw_index(workload.draw, ranks, keys, part, i, random);
        steps.push_back(draw_step(workload, keys, index, i + 1, random));
    }
    // A walk begins at the thread's part of the keys.
    if (workload.has(Act::walk) && !steps.empty()) steps[0].key = key_of(workload.layout, keys * part.thread / part.threads);
    return steps;
}

std::vector<Step> draw_load(const Workload &workload, std::uint64_t keys) {
    const std::uint64_t version = workload.has(Act::transfer) ? balance : 0;
    std::vector<Step> steps;
    steps.reserve(keys);
    for (std::uint64_t i = 0; i < keys; i++) {
        const std::uint64_t key = key_of(workload.layout, i);
        steps.push_back({key, word_of(key, version), Act::put});
    }
    Random random(keys);
    for (std::uint64_t i = keys; i > 1; i--) std::swap(steps[i - 1], steps[random.below(i)]);
    return steps;
}

std::vector<Step> draw_beside(Layout layout, std::uint64_t keys, std::uint64_t seed) {
    Random random(~seed);
    std::vector<Step> steps;
    steps.reserve(beside_steps);
    for (std::uint64_t i = 0; i < beside_steps; i++) {
        const std::uint64_t key = key_of(layout, random.below(keys));
        steps.push_back({key, word_of(key, i + 1), Act::put});
    }
    return steps;
}

} // namespace bench
