// How each store plays: the loop of a thread's calls, compiled once for each adapter.
//
// An adapter is a class Store with
//
//     static constexpr const char *name, *title;
//     static bool plays(const Workload &);            whether it has these calls, beside others
//     explicit Store(std::size_t keys);               empty, with room for so many
//     Caller caller();
//
// and a movable class Caller, of one thread, with
//
//     void put(key, word);
//     bool get(key, word &);                          whether the key is there
//     void remove(key);
//     std::uint64_t add(key, by);                     the word before; in one step
//     template <class Visit> std::size_t scan(first, room, Visit visit);
//                                                     visit(key, word) of the next rows, and their number
//     template <class Visit> std::size_t scan_down(last, room, Visit visit);
//                                                     the same of the rows from last down
//     template <class Visit> void get_many(keys, Visit visit);
//                                                     visit(key, is_there, word) of each, at one time
//     std::pair<std::uint64_t, std::uint64_t> transfer(from, to, by);
//                                                     the words before; in one step
//
// all of which throw a Failure if they fail.
#ifndef CLSM_BENCH_PLAYER_H
#define CLSM_BENCH_PLAYER_H

#include "entrant.h"

#include <algorithm>
#include <atomic>
#include <chrono>
#include <future>
#include <optional>
#include <thread>
#include <utility>

namespace bench {

using Clock = std::chrono::steady_clock;

// A checksum of answers in their order.
class Sum {
public:
    explicit Sum(std::uint64_t mask) : mask_(mask) {}

    void add(std::uint64_t key, std::uint64_t word) { weigh(key ^ (word & mask_)); }
    void add_none(std::uint64_t key) { weigh(~key); }
    std::uint64_t total() const { return total_; }

private:
    void weigh(std::uint64_t answer) {
        total_ += answer * weight_;
        weight_ += 2;
    }

    std::uint64_t mask_, total_ = 0, weight_ = 1;
};

// Opens when all have come.
class Gate {
public:
    explicit Gate(std::size_t parties) : missing_(parties) {}

    void pass() {
        missing_.fetch_sub(1);
        while (missing_.load() > 0) std::this_thread::yield();
    }

private:
    std::atomic<std::size_t> missing_;
};

// What the threads of a round share.
struct Field {
    explicit Field(const Round &of) : round(of), gate(of.steps.size() + (is_beside(of) ? 1 : 0)), next(of.keys) {}

    static bool is_beside(const Round &of) { return of.workload->beside != Beside::nobody; }

    const Round &round;
    Gate gate;
    std::atomic<bool> is_over{false};
    alignas(64) std::atomic<std::uint64_t> next; // the index of the key that is inserted next
};

// What a thread has played.
struct Played {
    Clock::time_point begin, end;
    std::uint64_t calls, answers;
};

template <class Caller> class Player {
public:
    Player(Caller caller, Field &field) : caller_(std::move(caller)), field_(field), sum_(field.round.mask) {}

    Played play(const std::vector<Step> &steps) {
        if (!steps.empty()) place_ = steps[0].key;
        field_.gate.pass();
        const Clock::time_point begin = Clock::now();
        for (const Step &step : steps) make(step);
        const Clock::time_point end = Clock::now();
        return {begin, end, rows_walked_ > 0 ? rows_walked_ : steps.size(), sum_.total()};
    }

    // Goes on until the round is over.
    void play_beside(const std::vector<Step> &steps) {
        field_.gate.pass();
        for (std::size_t i = 0; !field_.is_over.load(std::memory_order_relaxed); i++) {
            if (field_.round.workload->beside == Beside::scanner) walk();
            else make(steps[i % steps.size()]);
        }
    }

private:
    void make(const Step &step) {
        switch (step.act) {
        case Act::get: return get(step.key);
        case Act::put: return caller_.put(step.key, step.word);
        case Act::add: return sum_.add(step.key, caller_.add(step.key, 1));
        case Act::remove: return caller_.remove(step.key);
        case Act::scan: scan(step.key); return;
        case Act::walk: return walk();
        case Act::insert: return insert();
        case Act::get_recent: return get_recent(step.key);
        case Act::get_many: return ask(step.key);
        case Act::scan_down: return scan_down(step.key);
        case Act::transfer: return transfer(step.key, step.word);
        }
    }

    void note(std::uint64_t key, bool is_there, std::uint64_t word) {
        if (is_there) sum_.add(key, word);
        else sum_.add_none(key);
    }

    void get(std::uint64_t key) {
        std::uint64_t word = 0;
        const bool is_there = caller_.get(key, word);
        note(key, is_there, word);
    }

    void ask(std::uint64_t key) {
        asked_.push_back(key);
        if (asked_.size() < field_.round.workload->rows) return;
        caller_.get_many(asked_, [this](std::uint64_t of, bool is_there, std::uint64_t word) { note(of, is_there, word); });
        asked_.clear();
    }

    std::size_t scan(std::uint64_t first) {
        return caller_.scan(first, field_.round.workload->rows, [this](std::uint64_t key, std::uint64_t word) {
            sum_.add(key, word);
            last_ = key;
        });
    }

    void scan_down(std::uint64_t last) {
        caller_.scan_down(last, field_.round.workload->rows,
                          [this](std::uint64_t key, std::uint64_t word) { sum_.add(key, word); });
    }

    void transfer(std::uint64_t from, std::uint64_t to) {
        const auto [giver, taker] = caller_.transfer(from, to, 1);
        sum_.add(from, giver);
        sum_.add(to, taker);
    }

    void walk() {
        const std::size_t rows = scan(place_);
        rows_walked_ += rows;
        place_ = rows < field_.round.workload->rows ? 0 : last_ + 1;
    }

    void insert() {
        const std::uint64_t index = field_.next.fetch_add(1, std::memory_order_relaxed);
        const std::uint64_t key = key_of(field_.round.workload->layout, index);
        caller_.put(key, word_of(key, 1));
    }

    void get_recent(std::uint64_t behind) {
        const std::uint64_t newest = field_.next.load(std::memory_order_relaxed) - 1;
        get(key_of(field_.round.workload->layout, newest - behind));
    }

    Caller caller_;
    Field &field_;
    Sum sum_;
    std::uint64_t place_ = 0, last_ = 0, rows_walked_ = 0;
    std::vector<std::uint64_t> asked_;
};

template <class Store> class EntrantOf final : public Entrant {
public:
    const char *name() const override { return Store::name; }
    const char *title() const override { return Store::title; }
    bool plays(const Workload &workload) const override { return Store::plays(workload); }
    void open(std::size_t keys) override { store_.emplace(keys); }
    void close() override { store_.reset(); }

    void load(const std::vector<Step> &steps) override {
        auto caller = store_->caller();
        for (const Step &step : steps) caller.put(step.key, step.word);
    }

    Outcome play(const Round &round) override {
        Field field(round);
        std::vector<std::future<Played>> shares;
        std::future<void> beside;
        if (Field::is_beside(round)) {
            beside = std::async(std::launch::async, [&field, caller = store_->caller()]() mutable {
                Player<Caller>(std::move(caller), field).play_beside(field.round.beside);
            });
        }
        for (const std::vector<Step> &steps : round.steps) {
            shares.push_back(std::async(std::launch::async, [&field, &steps, caller = store_->caller()]() mutable {
                return Player<Caller>(std::move(caller), field).play(steps);
            }));
        }
        for (const auto &share : shares) share.wait();
        field.is_over.store(true);
        if (beside.valid()) beside.get();
        return outcome_of(shares);
    }

    void put_back(const Round &round) override {
        auto caller = store_->caller();
        for (const std::vector<Step> &steps : round.steps)
            for (const Step &step : steps)
                if (step.act == Act::remove) caller.put(step.key, word_of(step.key, 0));
    }

    std::uint64_t rows(std::uint64_t mask) override {
        Sum sum(mask);
        each_row([&sum](std::uint64_t key, std::uint64_t word) { sum.add(key, word); });
        return sum.total();
    }

    std::uint64_t sum() override {
        std::uint64_t total = 0;
        each_row([&total](std::uint64_t, std::uint64_t word) { total += word; });
        return total;
    }

private:
    using Caller = typename Store::Caller;

    template <class Visit> void each_row(Visit visit) {
        constexpr std::size_t room = 1000;
        auto caller = store_->caller();
        std::uint64_t first = 0;
        const auto pass = [&visit, &first](std::uint64_t key, std::uint64_t word) {
            visit(key, word);
            first = key + 1;
        };
        while (caller.scan(first, room, pass) == room) {}
    }

    static Outcome outcome_of(std::vector<std::future<Played>> &shares) {
        Outcome outcome;
        Clock::time_point begin = Clock::time_point::max(), end = Clock::time_point::min();
        for (auto &share : shares) {
            const Played done = share.get();
            begin = std::min(begin, done.begin);
            end = std::max(end, done.end);
            outcome.calls += done.calls;
            outcome.answers += done.answers;
        }
        outcome.nanoseconds = std::chrono::duration<double, std::nano>(end - begin).count();
        return outcome;
    }

    std::optional<Store> store_;
};

} // namespace bench

#endif
