#include "waits.h"

#include "../clsm.h"
#include "entrant.h"
#include "random.h"

#include <algorithm>
#include <array>
#include <atomic>
#include <chrono>
#include <cstdio>
#include <functional>
#include <memory>
#include <thread>

namespace bench {

namespace {

using Clock = std::chrono::steady_clock;
using std::chrono::milliseconds;

constexpr milliseconds scene_time(3000), batch_pause(1), snapshot_time(40);
constexpr std::size_t batch_rows = 16, hot_keys = 10, small_keys = 5000, large_epoch = 65536;

void check(int code) {
    if (code != CLSM_OK) throw Failure(std::string("waits: ") + clsm_strerror(code));
}

struct Close {
    void operator()(clsm_store *store) const { clsm_close(store); }
    void operator()(clsm_caller *caller) const { clsm_caller_close(caller); }
    void operator()(clsm_snapshot *snapshot) const { clsm_snapshot_close(snapshot); }
    void operator()(clsm_scan *scan) const { clsm_scan_close(scan); }
};

template <typename Handle> using Owned = std::unique_ptr<Handle, Close>;

Owned<clsm_store> open_store(std::size_t keys, std::size_t epoch) {
    clsm_options options = {};
    options.keys = keys;
    options.epoch = epoch;
    clsm_store *store = nullptr;
    check(clsm_open(&options, &store));
    return Owned<clsm_store>(store);
}

Owned<clsm_caller> open_caller(clsm_store *store) {
    clsm_caller *caller = nullptr;
    check(clsm_caller_open(store, &caller));
    return Owned<clsm_caller>(caller);
}

// The nanoseconds that calls of one thread took.
class Latencies {
public:
    template <class Call> void time(Call call) {
        const Clock::time_point begin = Clock::now();
        call();
        took_.push_back(std::chrono::duration<float, std::nano>(Clock::now() - begin).count());
    }

    void join(const Latencies &other) { took_.insert(took_.end(), other.took_.begin(), other.took_.end()); }
    void sort() { std::sort(took_.begin(), took_.end()); }
    std::size_t count() const { return took_.size(); }

    // The time that this share of the calls, which are sorted, kept within, in milliseconds.
    double within(double share) const {
        if (took_.empty()) return 0;
        const auto at = static_cast<std::size_t>(share * static_cast<double>(took_.size()));
        return static_cast<double>(took_[std::min(at, took_.size() - 1)]) / 1e6;
    }

private:
    std::vector<float> took_;
};

// What a scene plays: so many writers on so many keys, and a thread beside them.
struct Scene {
    const char *name;
    std::size_t keys, epoch;
    std::function<void(clsm_store *, const std::atomic<bool> &over, Latencies &)> beside;
};

void load(clsm_store *store, std::size_t keys) {
    const auto caller = open_caller(store);
    for (std::uint64_t key = 0; key < keys; key++) check(clsm_put(caller.get(), key, &key, 1));
}

struct Writer {
    Latencies puts;
    std::uint64_t refused = 0;
};

void write_until(clsm_store *store, std::uint64_t seed, std::size_t keys, const std::atomic<bool> &over, Writer &writer) {
    const auto caller = open_caller(store);
    Random random(seed);
    while (!over) {
        const std::uint64_t key = random.below(keys);
        writer.puts.time([&] { writer.refused += clsm_put(caller.get(), key, &key, 1) != CLSM_OK; });
    }
}

void print(std::ostream &out, const std::string &name, std::uint64_t writers, Latencies &calls, std::uint64_t refused) {
    std::array<char, 200> line;
    calls.sort();
    std::snprintf(line.data(), line.size(),
                  "%-34s %3llu writers  %9.0f calls/s  50%% %8.4f  99%% %8.3f  99.9%% %8.3f  worst %8.2f ms  %llu refused\n",
                  name.c_str(), static_cast<unsigned long long>(writers),
                  static_cast<double>(calls.count()) / std::chrono::duration<double>(scene_time).count(),
                  calls.within(0.5), calls.within(0.99), calls.within(0.999), calls.within(1),
                  static_cast<unsigned long long>(refused));
    out << line.data() << std::flush;
}

void play(const Scene &scene, std::uint64_t writers, std::ostream &out) {
    const auto store = open_store(scene.keys, scene.epoch);
    load(store.get(), scene.keys);
    std::atomic<bool> over(false);
    std::vector<Writer> made(writers);
    std::vector<std::thread> threads;
    Latencies beside;
    for (std::uint64_t i = 0; i < writers; i++)
        threads.emplace_back(write_until, store.get(), i, scene.keys, std::cref(over), std::ref(made[i]));
    if (scene.beside) threads.emplace_back(scene.beside, store.get(), std::cref(over), std::ref(beside));
    std::this_thread::sleep_for(scene_time);
    over = true;
    for (std::thread &thread : threads) thread.join();
    Writer all;
    for (const Writer &writer : made) {
        all.puts.join(writer.puts);
        all.refused += writer.refused;
    }
    print(out, std::string(scene.name) + ": puts", writers, all.puts, all.refused);
    if (beside.count() > 0) print(out, std::string(scene.name) + ": beside", writers, beside, 0);
}

// ---- What plays beside

void write_batches(clsm_store *store, const std::atomic<bool> &over, Latencies &took) {
    const auto caller = open_caller(store);
    std::array<clsm_row, batch_rows> rows = {};
    for (std::size_t i = 0; i < rows.size(); i++) rows[i] = {i, {1, {i}}};
    while (!over) {
        took.time([&] { check(clsm_batch(caller.get(), rows.data(), rows.size())); });
        std::this_thread::sleep_for(batch_pause);
    }
}

void hold_snapshots(clsm_store *store, const std::atomic<bool> &over, Latencies &) {
    while (!over) {
        clsm_snapshot *snapshot = nullptr;
        check(clsm_store_snapshot(store, &snapshot));
        const Owned<clsm_snapshot> held(snapshot);
        std::this_thread::sleep_for(snapshot_time);
    }
}

void count_all(clsm_store *store, const std::atomic<bool> &over, Latencies &took) {
    const auto caller = open_caller(store);
    std::uint64_t keys = 0;
    while (!over) took.time([&] { check(clsm_count(caller.get(), 0, UINT64_MAX, &keys)); });
}

void scan_all(clsm_store *store, const std::atomic<bool> &over, Latencies &took) {
    const auto caller = open_caller(store);
    while (!over)
        took.time([&] {
            clsm_scan *opened = nullptr;
            clsm_row row;
            check(clsm_scan_open(caller.get(), 0, UINT64_MAX, &opened));
            const Owned<clsm_scan> scan(opened);
            int code = CLSM_OK;
            while (code == CLSM_OK) code = clsm_scan_next(scan.get(), &row);
            if (code != CLSM_DONE) check(code);
        });
}

} // namespace

void measure_waits(const Options &options, std::ostream &out) {
    const std::vector<Scene> scenes = {
        {"overwrites", options.keys, 0, nullptr},
        {"batches of 16", small_keys, 0, write_batches},
        {"no batches", small_keys, 0, nullptr},
        {"batches of 16, epochs of 65,536", small_keys, large_epoch, write_batches},
        {"no batches, epochs of 65,536", small_keys, large_epoch, nullptr},
        {"hot keys, snapshots of 40 ms", hot_keys, 0, hold_snapshots},
        {"counts of all keys", options.keys, 0, count_all},
        {"scans of all keys", options.keys, 0, scan_all},
    };
    out << "\n";
    for (const Scene &scene : scenes)
        for (const std::uint64_t writers : options.threads)
            for (std::uint64_t i = 0; i < options.repeat; i++) play(scene, writers, out);
}

} // namespace bench
