#include "mixes.h"

#include "../clsm.h"
#include "mix_lines.h"
#include "player.h"
#include "report.h"

#include <cmath>
#include <memory>

namespace bench {

namespace {

using namespace mixes;

constexpr int patience = 16;                          // that of clsm_bench
constexpr std::uint32_t most_drawn = 1u << 20;        // calls of a thread, which are drawn before
constexpr std::uint32_t most_with_whole_scans = 2000; // calls of a thread
constexpr std::uint32_t merges_of_levels = 4;         // of so many merges the last one is into level 1
constexpr std::uint64_t one_more = std::uint64_t{1} << 32; // counts changes in the upper half of a word
constexpr std::uint64_t index_part = one_more - 1;

void check(int code) {
    if (code != CLSM_OK) throw Failure(std::string("mixes: ") + clsm_strerror(code));
}

void expect(bool is_right, const char *call) {
    if (!is_right) throw Failure(std::string("mixes: a wrong answer to a ") + call);
}

struct Close {
    void operator()(clsm_store *store) const { clsm_close(store); }
    void operator()(clsm_caller *caller) const { clsm_caller_close(caller); }
    void operator()(clsm_scan *scan) const { clsm_scan_close(scan); }
};

template <typename Handle> using Owned = std::unique_ptr<Handle, Close>;

// With room for new keys of so many threads that make so many calls each. Where keys are to stay in the
// epoch, or in a run of level 1, no thread merges beside.
Owned<clsm_store> open_store(const Series &series, std::uint32_t threads, std::uint32_t calls) {
    clsm_options options = {};
    options.keys = series.keys() + std::size_t{threads} * std::min(calls, new_keys);
    options.epoch = series.epoch();
    options.patience = patience;
    options.merge = series.line().place == Place::half_epoch ? 0 : CLSM_MERGE_IN_CALLS;
    clsm_store *store = nullptr;
    check(clsm_open(&options, &store));
    return Owned<clsm_store>(store);
}

Owned<clsm_caller> open_caller(clsm_store *store) {
    clsm_caller *caller = nullptr;
    check(clsm_caller_open(store, &caller));
    return Owned<clsm_caller>(caller);
}

// ---- Loading

// Puts at the keys of these indices, from the first one on again behind the last one.
void put_range(clsm_caller *caller, const Series &series, std::uint32_t first, std::uint32_t end) {
    for (std::uint32_t i = first; i < end; i++) {
        const std::uint64_t word = i % series.keys();
        check(clsm_put(caller, key_of(filler, i % series.keys()), &word, 1));
    }
}

// Epoch by epoch, each of which is merged: so many that the last merge is into level 1. At the end one
// that has no key left puts at the last one again.
void fill_run(clsm_store *store, clsm_caller *caller, const Series &series) {
    const std::uint32_t keys = series.keys(), epoch = series.epoch();
    const std::uint32_t part = merges_of_levels * epoch, merges = (keys + part - 1) / part * merges_of_levels;
    for (std::uint32_t merge = 0; merge < merges; merge++) {
        const std::uint32_t end = std::min(keys, (merge + 1) * epoch);
        put_range(caller, series, std::min(end - 1, merge * epoch), end);
        check(clsm_sweep(store));
    }
}

void fill(clsm_store *store, const Series &series) {
    const auto caller = open_caller(store);
    if (series.line().place == Place::run) return fill_run(store, caller.get(), series);
    put_range(caller.get(), series, 0, series.keys());
    if (series.line().place == Place::half_epoch) put_range(caller.get(), series, 0, series.epoch() / 2);
}

// ---- Calls

// A thread: its caller and its calls, of which each answer is tested.
class Thread {
public:
    Thread(clsm_store *store, const Series &series, std::uint32_t number, std::uint32_t calls)
        : series_(series), caller_(open_caller(store)), rows_(series.rows()), number_(number), calls_(calls) {}

    Played play(Gate &gate) {
        std::vector<Call> drawn;
        if (!series_.line().shares.empty()) drawn = series_.draw(number_, calls_);
        gate.pass();
        const Clock::time_point begin = Clock::now();
        if (drawn.empty()) make_gets();
        for (const Call &call : drawn) make(call);
        return {begin, Clock::now(), calls_, 0};
    }

private:
    void make_gets() {
        Words words(number_);
        for (std::uint32_t i = 0; i < calls_; i++) get(series_.get(words));
    }

    void make(const Call &call) {
        switch (call.ask) {
        case Ask::get: return get(call);
        case Ask::put:
        case Ask::insert: return check(clsm_put(caller_.get(), call.key, &call.word, 1));
        case Ask::change: return series_.line().is_stepwise ? replace(call.key) : add(call.key);
        case Ask::scan: return series_.line().is_stepwise ? scan(call) : page(call.key, call.word);
        case Ask::page: return page(call.key, UINT64_MAX);
        }
    }

    void get(const Call &call) {
        clsm_value value;
        check(clsm_get(caller_.get(), call.key, &value));
        expect((value.words[0] & index_part) == call.word, "get");
    }

    void add(std::uint64_t key) {
        clsm_changed changed;
        check(clsm_add(caller_.get(), key, one_more, &changed));
    }

    // Adds one to the second word, as clsm_bench does, until no other write comes between.
    void replace(std::uint64_t key) {
        int code = CLSM_KEPT;
        while (code == CLSM_KEPT) {
            clsm_value old;
            check(clsm_get(caller_.get(), key, &old));
            clsm_value wanted = old;
            wanted.length = 2;
            wanted.words[1]++;
            code = clsm_replace(caller_.get(), key, &old, &wanted, nullptr);
        }
        check(code);
    }

    void page(std::uint64_t first, std::uint64_t last) {
        clsm_page_end end;
        check(clsm_page(caller_.get(), first, last, rows_.data(), rows_.size(), &end));
        expect(end.rows == rows_.size(), "page");
    }

    void scan(const Call &call) {
        clsm_scan *opened = nullptr;
        check(clsm_scan_open(caller_.get(), call.key, call.word, &opened));
        const Owned<clsm_scan> scan(opened);
        std::size_t rows = 0;
        clsm_row row;
        int code = CLSM_OK;
        while ((code = clsm_scan_next(scan.get(), &row)) == CLSM_OK) rows++;
        if (code != CLSM_DONE) check(code);
        expect(rows == rows_.size(), "scan");
    }

    const Series &series_;
    Owned<clsm_caller> caller_;
    std::vector<clsm_row> rows_;
    std::uint32_t number_, calls_;
};

// The nanoseconds of a call on a store that is opened and filled for it.
double play_once(const Series &series, std::uint32_t threads, std::uint32_t calls) {
    const auto store = open_store(series, threads, calls);
    fill(store.get(), series);
    Gate gate(threads);
    std::vector<Thread> made;
    for (std::uint32_t number = 0; number < threads; number++) made.emplace_back(store.get(), series, number, calls);
    std::vector<std::future<Played>> playing;
    for (Thread &thread : made)
        playing.push_back(std::async(std::launch::async, [&gate, &thread] { return thread.play(gate); }));
    Clock::time_point begin = Clock::time_point::max(), end = Clock::time_point::min();
    for (auto &one : playing) {
        const Played played = one.get();
        begin = std::min(begin, played.begin);
        end = std::max(end, played.end);
    }
    return std::chrono::duration<double, std::nano>(end - begin).count() / threads / calls;
}

// ---- Lines

// How many calls each of so many threads makes: as many puts in all, where these are sustained and
// nothing else was asked.
std::uint32_t calls_of(const mixes::Line &line, const Options &options, std::uint32_t threads) {
    constexpr std::uint32_t default_calls = 20000, default_puts = 1000000;
    const auto asked = static_cast<std::uint32_t>(options.calls);
    std::uint32_t calls = asked > 0 ? asked : default_calls;
    if (line.is_sustained() && asked == 0) calls = default_puts / threads;
    if (line.has_whole_scans()) calls = std::min(calls, most_with_whole_scans);
    return line.shares.empty() ? calls : std::min(calls, most_drawn);
}

// As clsm_bench prints it.
void print(std::ostream &out, const char *name, std::uint32_t threads, const Times &times) {
    const auto picoseconds = [](double nanoseconds) { return std::llround(1000 * nanoseconds); };
    out << name << " threads " << threads << " ps " << picoseconds(times.median()) << " ["
        << picoseconds(times.least()) << " " << picoseconds(times.greatest()) << "]" << std::endl;
}

// Once to warm up, and then as often as the options say.
void measure(const Series &series, const Options &options, std::uint32_t threads, std::ostream &out) {
    const std::uint32_t calls = calls_of(series.line(), options, threads);
    play_once(series, threads, calls);
    Times times;
    for (std::uint64_t i = 0; i < options.repeat; i++) times.add(play_once(series, threads, calls));
    print(out, series.line().name, threads, times);
}

} // namespace

void measure_mixes(const Options &options, std::ostream &out) {
    bool is_any = false;
    for (const mixes::Line &line : all_lines()) {
        if (!options.line.empty() && options.line != line.name) continue;
        const Series series(line, static_cast<std::uint32_t>(options.keys_of_mixes));
        for (const std::uint64_t threads : options.threads)
            measure(series, options, static_cast<std::uint32_t>(threads), out);
        is_any = true;
    }
    if (!is_any) throw Failure("--line: no " + options.line);
}

} // namespace bench
