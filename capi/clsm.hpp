// Cupolanettle for C++17: the calls of clsm.h on handles that close themselves.
//
//     clsm::store store;                          // 100,000 keys
//     clsm::caller caller = store.caller();       // one for each thread
//     caller.put(7, {70, 71});
//     clsm::snapshot before = caller.snapshot();
//     caller.remove(7);
//     for (const auto &[key, value] : before.range())
//         std::cout << key << ": " << value.size() << " words\n";
//
// What each call does is said in clsm.h. Here: no value is std::nullopt. A call that is refused
// throws clsm::error, or sets a std::error_code, if one is given to it as its last argument, as
// those of std::filesystem do; what such a call opens is empty then, as a handle is that was moved:
// it converts to false, and its calls are refused with CLSM_BAD_POINTER. transact, update, copies of
// rows into vectors and iterators throw only. Each handle keeps its store open; a store is closed
// with the last.
//
// A store may be used by all threads at once, each other handle by one at a time.
#ifndef CLSM_HPP
#define CLSM_HPP

#include "clsm_reading.hpp"
#include "clsm_values.hpp"

#include <cstddef>
#include <cstdint>
#include <memory>
#include <optional>
#include <system_error>
#include <type_traits>
#include <utility>
#include <vector>

namespace clsm {

// ---- Transactions

// Reads the map of one moment, with its own writes in it. They are made at one later moment, if all
// that it read still stands then: caller::transact runs a function on one until they are. Throws
// error if memory runs out, or no seat is left for its first read.
class transaction {
public:
    std::optional<value> get(std::uint64_t key) {
        clsm_value found;
        detail::thrower()(clsm_transaction_get(raw(), key, &found));
        return value::from(found);
    }
    bool contains(std::uint64_t key) { return get(key).has_value(); }
    std::vector<std::optional<value>> get_many(const std::vector<std::uint64_t> &keys) {
        return detail::read_many(
            keys, [this](auto... arguments) { return clsm_transaction_get_many(raw(), arguments...); });
    }
    // The rows of the least and of the greatest key from first to last that have a value: the range
    // is read up to that key, or all of it.
    std::optional<row> first(std::uint64_t first = 0, std::uint64_t last = detail::greatest_key) {
        return detail::find_row([&](clsm_row *row) { return clsm_transaction_first(raw(), first, last, row); });
    }
    std::optional<row> last(std::uint64_t first = 0, std::uint64_t last = detail::greatest_key) {
        return detail::find_row([&](clsm_row *row) { return clsm_transaction_last(raw(), first, last, row); });
    }
    // The keys from first to last, both included, that have a value: their number is read, and not
    // their values.
    std::uint64_t count(std::uint64_t first = 0, std::uint64_t last = detail::greatest_key) {
        std::uint64_t keys = 0;
        detail::thrower()(clsm_transaction_count(raw(), first, last, &keys));
        return keys;
    }
    // The first rows from first to last, both included: the range is read up to `next`, or all of
    // it.
    clsm::page page(std::uint64_t first, std::uint64_t last, std::size_t most) {
        const auto call = [this](auto... arguments) { return clsm_transaction_page(raw(), arguments...); };
        return detail::read_page(call, first, last, most, detail::thrower());
    }
    // By falling key: the next page begins at `next` downwards.
    clsm::page page_down(std::uint64_t last, std::uint64_t first, std::size_t most) {
        const auto call = [this](auto... arguments) { return clsm_transaction_page_down(raw(), arguments...); };
        return detail::read_page(call, last, first, most, detail::thrower());
    }
    void put(std::uint64_t key, const value &value) {
        detail::thrower()(clsm_transaction_put(raw(), key, value.data(), value.size()));
    }
    void remove(std::uint64_t key) { detail::thrower()(clsm_transaction_remove(raw(), key)); }
    // Adds to the word of the key. Not written if the value has several words, or the sum passes
    // 2^64 - 1.
    change add(std::uint64_t key, std::uint64_t by) {
        clsm_changed changed = {};
        const int code = clsm_transaction_add(raw(), key, by, &changed);
        detail::thrower()(code);
        return {code == CLSM_OK, value::from(changed.before), value::from(changed.after)};
    }
    // For calls of clsm.h.
    clsm_transaction *raw() const noexcept { return own_.get(); }

private:
    friend class caller;
    explicit transaction(clsm_caller *caller) {
        clsm_transaction *opened = nullptr;
        detail::thrower()(clsm_transaction_open(caller, &opened));
        own_.reset(opened);
    }
    detail::owned<clsm_transaction> own_ = nullptr;
};

// ---- Callers

// A thread's access to the store.
class caller {
public:
    // ---- writes

    void put(std::uint64_t key, const value &value) { detail::thrower()(put_raw(key, value)); }
    void put(std::uint64_t key, const value &value, std::error_code &code) noexcept {
        detail::setter{code}(put_raw(key, value));
    }
    void remove(std::uint64_t key) { detail::thrower()(clsm_remove(raw(), key)); }
    void remove(std::uint64_t key, std::error_code &code) noexcept {
        detail::setter{code}(clsm_remove(raw(), key));
    }
    // Made once, without waiting: CLSM_OK, or why nothing was written. A code below CLSM_MEMORY: the
    // same call may succeed.
    clsm_code try_put(std::uint64_t key, const value &value) noexcept {
        return static_cast<clsm_code>(clsm_try_put(raw(), key, value.data(), value.size()));
    }
    clsm_code try_remove(std::uint64_t key) noexcept { return static_cast<clsm_code>(clsm_try_remove(raw(), key)); }
    void write(const batch &batch) { detail::thrower()(write_raw(batch)); }
    void write(const batch &batch, std::error_code &code) noexcept { detail::setter{code}(write_raw(batch)); }

    // Writes the batch if all conditions hold at its moment; tests them alone if that is empty.
    // Answers whether they hold. If not, the place of the first one that does not is left at *unmet:
    // those of keys are numbered in their order, and behind them those of ranges.
    bool write_if(const conditions &conditions, const batch &batch, std::size_t *unmet = nullptr) {
        return write_if_with(conditions, batch, unmet, detail::thrower());
    }
    bool write_if(const conditions &conditions, const batch &batch, std::error_code &code,
                  std::size_t *unmet = nullptr) noexcept {
        return write_if_with(conditions, batch, unmet, detail::setter{code});
    }

    // Removes the keys from first to last, both included, or all keys, and answers how many it has
    // removed. It is not one moment: it reads pages, and removes each by a batch. One that is refused
    // has removed those that it came to before, and the same call goes on from there.
    std::uint64_t remove_range(std::uint64_t first, std::uint64_t last) {
        return remove_with(first, last, detail::thrower());
    }
    std::uint64_t remove_range(std::uint64_t first, std::uint64_t last, std::error_code &code) noexcept {
        return remove_with(first, last, detail::setter{code});
    }
    std::uint64_t clear() { return remove_range(0, detail::greatest_key); }
    std::uint64_t clear(std::error_code &code) noexcept { return remove_range(0, detail::greatest_key, code); }

    // Removes the row of the least, or the greatest, key from first to last that has a value, and
    // answers it: at that moment it was the first, or the last.
    std::optional<row> pop_first(std::uint64_t first = 0, std::uint64_t last = detail::greatest_key) {
        return detail::find_row([&](clsm_row *row) { return clsm_pop_first(raw(), first, last, row); });
    }
    std::optional<row> pop_last(std::uint64_t first = 0, std::uint64_t last = detail::greatest_key) {
        return detail::find_row([&](clsm_row *row) { return clsm_pop_last(raw(), first, last, row); });
    }

    // Runs the function on a transaction and commits that: again after a conflict, and a pause, so
    // many times at most and once at least, and then throws error with CLSM_CONFLICT. Answers what
    // the function does. What the function throws ends it, and nothing is written. As it may run
    // several times, it should do nothing but read and write by its transaction.
    template <class Function> auto transact(Function function, unsigned tries = 100) {
        clsm::transaction transaction(raw());
        for (unsigned made = 1;; made++) {
            if constexpr (std::is_void_v<decltype(function(transaction))>) {
                function(transaction);
                if (ends(transaction, made < tries)) return;
            } else {
                auto answer = function(transaction);
                if (ends(transaction, made < tries)) return answer;
            }
        }
    }

    // ---- changes: they read the key and write it in one step

    // Adds to the word of the key. Not written if the value has several words, or the sum passes
    // 2^64 - 1.
    change add(std::uint64_t key, std::uint64_t by) { return add_with(key, by, detail::thrower()); }
    change add(std::uint64_t key, std::uint64_t by, std::error_code &code) {
        return add_with(key, by, detail::setter{code});
    }
    // Writes the value if the key has none.
    change put_if_absent(std::uint64_t key, const value &value) { return replace(key, std::nullopt, value); }
    change put_if_absent(std::uint64_t key, const value &value, std::error_code &code) {
        return replace(key, std::nullopt, value, code);
    }
    // Writes the desired value, or removes the key, if that has the expected value, or none.
    change replace(std::uint64_t key, const std::optional<value> &expected, const std::optional<value> &desired) {
        return replace_with(key, expected, desired, detail::thrower());
    }
    change replace(std::uint64_t key, const std::optional<value> &expected, const std::optional<value> &desired,
                   std::error_code &code) {
        return replace_with(key, expected, desired, detail::setter{code});
    }
    // Writes what the function makes of the key's value, or removes the key if it answers nullopt.
    // The function is called again if another write came between: it should do nothing but answer.
    template <class Function> change update(std::uint64_t key, Function function) {
        std::optional<value> old = get(key);
        for (;;) {
            const std::optional<value> desired = function(std::as_const(old));
            if (!old && !desired) return {false, old, old};
            change made = replace(key, old, desired);
            if (made.is_written) return made;
            old = std::move(made.before);
        }
    }

    // ---- reads

    std::optional<value> get(std::uint64_t key) const {
        clsm_value found;
        detail::thrower()(clsm_get(raw(), key, &found));
        return value::from(found);
    }
    bool contains(std::uint64_t key) const { return get(key).has_value(); }
    // The values of the keys at one moment, each at the place of its key.
    std::vector<std::optional<value>> get_many(const std::vector<std::uint64_t> &keys) const {
        return detail::read_many(keys, [this](auto... arguments) { return clsm_get_many(raw(), arguments...); });
    }
    // The rows of the least and of the greatest key from first to last that have a value.
    std::optional<row> first(std::uint64_t first = 0, std::uint64_t last = detail::greatest_key) const {
        return detail::find_row([&](clsm_row *row) { return clsm_first(raw(), first, last, row); });
    }
    std::optional<row> last(std::uint64_t first = 0, std::uint64_t last = detail::greatest_key) const {
        return detail::find_row([&](clsm_row *row) { return clsm_last(raw(), first, last, row); });
    }
    // The keys from first to last, both included, that have a value: visits each of them.
    std::uint64_t count(std::uint64_t first = 0, std::uint64_t last = detail::greatest_key) const {
        std::uint64_t keys = 0;
        detail::thrower()(clsm_count(raw(), first, last, &keys));
        return keys;
    }
    clsm::page page(std::uint64_t first, std::uint64_t last, std::size_t most) const {
        return page_with(first, last, most, detail::thrower());
    }
    clsm::page page(std::uint64_t first, std::uint64_t last, std::size_t most, std::error_code &code) const {
        return page_with(first, last, most, detail::setter{code});
    }
    // By falling key: the next page begins at `next` downwards.
    clsm::page page_down(std::uint64_t last, std::uint64_t first, std::size_t most) const {
        const auto call = [this](auto... arguments) { return clsm_page_down(raw(), arguments...); };
        return detail::read_page(call, last, first, most, detail::thrower());
    }

    // ---- rows one after another, from first to last, both included

    // At the moment of this call.
    scan range(std::uint64_t first = 0, std::uint64_t last = detail::greatest_key) {
        return scan_with(first, last, detail::thrower());
    }
    scan range(std::uint64_t first, std::uint64_t last, std::error_code &code) {
        return scan_with(first, last, detail::setter{code});
    }
    // Page by page, each of its own moment. Not of a temporary, which would be closed before it.
    clsm::walk walk(std::uint64_t first = 0, std::uint64_t last = detail::greatest_key) & {
        return walk_with(first, last, detail::thrower());
    }
    clsm::walk walk(std::uint64_t first, std::uint64_t last, std::error_code &code) & {
        return walk_with(first, last, detail::setter{code});
    }
    clsm::snapshot snapshot() { return snapshot_with(detail::thrower()); }
    clsm::snapshot snapshot(std::error_code &code) { return snapshot_with(detail::setter{code}); }

    // ---- times

    std::uint64_t time() const noexcept { return clsm_time(raw()); }
    std::uint64_t seen() const noexcept { return clsm_seen(raw()); }
    void follow(std::uint64_t seen) { detail::thrower()(clsm_follow(raw(), seen)); }
    void follow(std::uint64_t seen, std::error_code &code) noexcept {
        detail::setter{code}(clsm_follow(raw(), seen));
    }
    unsigned number() const noexcept { return clsm_number(raw()); }
    explicit operator bool() const noexcept { return handle_.own != nullptr; }
    // For calls of clsm.h.
    clsm_caller *raw() const noexcept { return handle_.own.get(); }

private:
    friend class store;
    explicit caller(detail::handle<clsm_caller> handle) : handle_(std::move(handle)) {}

    int put_raw(std::uint64_t key, const value &value) noexcept {
        return clsm_put(raw(), key, value.data(), value.size());
    }
    int write_raw(const batch &batch) noexcept { return clsm_batch(raw(), batch.raw().data(), batch.size()); }

    template <class Done> std::uint64_t remove_with(std::uint64_t first, std::uint64_t last, Done done) {
        std::uint64_t removed = 0;
        done(clsm_remove_range(raw(), first, last, &removed));
        return removed;
    }
    template <class Done> scan scan_with(std::uint64_t first, std::uint64_t last, Done done) {
        const auto call = [&](clsm_scan **to) { return clsm_scan_open(raw(), first, last, to); };
        return scan({handle_.store, detail::open<clsm_scan>(call, done)});
    }
    template <class Done> clsm::walk walk_with(std::uint64_t first, std::uint64_t last, Done done) {
        const auto call = [&](clsm_walk **to) { return clsm_walk_open(raw(), first, last, to); };
        return clsm::walk(detail::owned<clsm_walk>(detail::open<clsm_walk>(call, done)));
    }
    template <class Done> clsm::snapshot snapshot_with(Done done) {
        const auto call = [&](clsm_snapshot **to) { return clsm_snapshot_open(raw(), to); };
        return clsm::snapshot({handle_.store, detail::open<clsm_snapshot>(call, done)});
    }

    // Whether it was committed; if not, it is run again.
    static bool ends(const transaction &transaction, bool may_run_again) {
        const int code = clsm_transaction_commit(transaction.raw());
        if (code == CLSM_CONFLICT && may_run_again) return false;
        detail::thrower()(code);
        return true;
    }

    template <class Done>
    bool write_if_with(const conditions &conditions, const batch &batch, std::size_t *unmet, Done done) {
        const std::vector<clsm_row> &rows = conditions.raw_rows();
        const std::vector<clsm_range_count> &counts = conditions.raw_counts();
        const int code = clsm_batch_if(raw(), rows.data(), rows.size(), counts.data(), counts.size(),
                                       batch.raw().data(), batch.size(), unmet);
        done(code);
        return code == CLSM_OK;
    }

    static change change_of(int code, const clsm_changed &raw) {
        return {code == CLSM_OK, value::from(raw.before), value::from(raw.after)};
    }
    template <class Done> change add_with(std::uint64_t key, std::uint64_t by, Done done) {
        clsm_changed changed = {};
        const int code = clsm_add(raw(), key, by, &changed);
        done(code);
        return change_of(code, changed);
    }
    template <class Done>
    change replace_with(std::uint64_t key, const std::optional<value> &expected, const std::optional<value> &desired,
                        Done done) {
        clsm_changed changed = {};
        const int code = clsm_replace(raw(), key, expected ? &expected->raw() : nullptr,
                                      desired ? &desired->raw() : nullptr, &changed);
        done(code);
        return change_of(code, changed);
    }
    template <class Done>
    clsm::page page_with(std::uint64_t first, std::uint64_t last, std::size_t most, Done done) const {
        const auto call = [this](auto... arguments) { return clsm_page(raw(), arguments...); };
        return detail::read_page(call, first, last, most, done);
    }

    detail::handle<clsm_caller> handle_;
};

// ---- Stores

// How to open a store, as clsm.h says; what is 0 is left to the library.
struct options : clsm_options {
    options() noexcept : clsm_options() {}
    options &with_keys(std::size_t most) noexcept { return with(keys, most); }
    options &with_epoch(std::size_t writes) noexcept { return with(epoch, writes); }
    options &with_versions(std::size_t most) noexcept { return with(versions, most); }
    options &with_wait(std::int64_t milliseconds) noexcept { return with(wait, milliseconds); }
    options &with_patience(int looks) noexcept { return with(patience, looks); }
    options &with_merge_in_calls() noexcept { return with(merge, CLSM_MERGE_IN_CALLS); }

private:
    template <class Option> options &with(Option &option, Option chosen) noexcept {
        option = chosen;
        return *this;
    }
};

// An ordered map, for all threads. A copy is the same map.
class store {
public:
    explicit store(const options &options = {}) : store(opened(options, detail::thrower()), detail::closer()) {}
    store(const options &options, std::error_code &code)
        : store(opened(options, detail::setter{code}), detail::closer()) {}

    // A store of its own with all rows that this one has at one moment of the call: a larger one, say.
    // Refused with CLSM_RUN_FULL if this one has more keys with a value than that is to have.
    store copy(const options &options = {}) const { return {copied(options, detail::thrower()), detail::closer()}; }
    store copy(const options &options, std::error_code &code) const {
        return {copied(options, detail::setter{code}), detail::closer()};
    }

    clsm::caller caller() const { return caller_with(detail::thrower()); }
    clsm::caller caller(std::error_code &code) const { return caller_with(detail::setter{code}); }
    clsm::snapshot snapshot() const { return snapshot_with(detail::thrower()); }
    clsm::snapshot snapshot(std::error_code &code) const { return snapshot_with(detail::setter{code}); }
    // As caller::transact, by a caller that it opens for that: a thread with many has one of its own.
    template <class Function> auto transact(Function function, unsigned tries = 100) const {
        clsm::caller own = caller();
        return own.transact(std::move(function), tries);
    }
    // Merges all that was written so far: CLSM_OK, CLSM_IDLE, or why not all was merged.
    clsm_code sweep() const noexcept { return static_cast<clsm_code>(clsm_sweep(raw())); }
    clsm_statistics stats() const {
        clsm_statistics now;
        detail::thrower()(clsm_stats(raw(), &now));
        return now;
    }
    explicit operator bool() const noexcept { return store_ != nullptr; }
    // For calls of clsm.h.
    clsm_store *raw() const noexcept { return store_.get(); }

private:
    store(clsm_store *opened, detail::closer closer) : store_(opened, closer) {}

    template <class Done> static clsm_store *opened(const clsm_options &options, Done done) {
        return detail::open<clsm_store>([&](clsm_store **to) { return clsm_open(&options, to); }, done);
    }
    template <class Done> clsm_store *copied(const clsm_options &options, Done done) const {
        return detail::open<clsm_store>([&](clsm_store **to) { return clsm_copy(raw(), &options, to); }, done);
    }
    template <class Done> clsm::caller caller_with(Done done) const {
        const auto call = [this](clsm_caller **to) { return clsm_caller_open(raw(), to); };
        return clsm::caller({store_, detail::open<clsm_caller>(call, done)});
    }
    template <class Done> clsm::snapshot snapshot_with(Done done) const {
        const auto call = [this](clsm_snapshot **to) { return clsm_store_snapshot(raw(), to); };
        return clsm::snapshot({store_, detail::open<clsm_snapshot>(call, done)});
    }

    std::shared_ptr<clsm_store> store_;
};

} // namespace clsm

#endif
