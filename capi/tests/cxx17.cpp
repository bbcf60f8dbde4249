// The header for C++17: what it adds to clsm.h. Errors thrown and set, handles that close
// themselves in whichever order, iterators, algorithms of the standard library.
#include "../clsm.hpp"
#include "../clsm_codec.h"

#include <cstdio>
#include <cstdlib>
#include <map>
#include <numeric>
#include <thread>
#include <type_traits>
#include <unordered_set>
#include <vector>

#define CHECK(holds)                                                                               \
    do {                                                                                           \
        if (!(holds)) {                                                                            \
            std::fprintf(stderr, "%s:%d: %s\n", __FILE__, __LINE__, #holds);                       \
            std::exit(1);                                                                          \
        }                                                                                          \
    } while (0)

namespace {

using clsm::value;
using std::nullopt;

// Answers the code of the error that the call throws, or CLSM_OK.
template <class Call> int thrown(Call call) {
    try {
        call();
    } catch (const clsm::error &error) {
        CHECK(error.code().category() == clsm::category());
        CHECK(std::string(error.what()).find(clsm_strerror(error.why())) != std::string::npos);
        return error.why();
    }
    return CLSM_OK;
}

void values() {
    const value one = 7, two = {70, 71}, three = std::array<std::uint64_t, 3>{1, 2, 3};
    CHECK(one.size() == 1 && one.front() == 7 && one == value({7}) && one != two);
    CHECK(two[1] == 71 && std::accumulate(three.begin(), three.end(), std::uint64_t(0)) == 6);
    const std::uint64_t words[9] = {};
    int lengths = 0;
    for (const std::size_t count : {std::size_t(0), std::size_t(9)}) {
        try {
            value(words, count);
        } catch (const std::length_error &) {
            lengths++;
        }
    }
    CHECK(lengths == 2 && value(words, 8).size() == 8);
    CHECK(!value::from(clsm_value{}) && value::from(two.raw()) == two);

    // They are ordered as their words, and are keys of maps.
    CHECK(one < two && two > one && one <= one && one >= one && !(two < two) && value({7}) < value({7, 0}));
    const std::map<value, int> ordered = {{two, 2}, {one, 1}, {three, 3}};
    CHECK(ordered.begin()->first == three && ordered.rbegin()->first == two);
    const std::unordered_set<value> hashed = {one, two, three, 7};
    CHECK(hashed.size() == 3 && hashed.count(value({70, 71})) == 1 && hashed.count(8) == 0);
}

// The codes of clsm.h are error codes, and conditions of the standard library tell what they are.
void codes() {
    std::error_code code = CLSM_RUN_FULL;
    CHECK(code == CLSM_RUN_FULL && code != CLSM_NO_SEAT && code.category() == clsm::category());
    CHECK(code.message() == clsm_strerror(CLSM_RUN_FULL));
    for (const clsm_code wrong : {CLSM_BAD_KEYS, CLSM_BAD_EPOCH, CLSM_BAD_PATIENCE, CLSM_BAD_VERSIONS, CLSM_BAD_WAIT,
                                  CLSM_BAD_MERGE, CLSM_BAD_VALUE, CLSM_BAD_BATCH, CLSM_EMPTY_BATCH, CLSM_BAD_POINTER})
        CHECK(std::error_code(wrong) == std::errc::invalid_argument);
    for (const clsm_code again : {CLSM_FULL, CLSM_RACED, CLSM_OVERTAKEN, CLSM_PINNED, CLSM_CONFLICT})
        CHECK(std::error_code(again) == std::errc::resource_unavailable_try_again);
    CHECK(std::error_code(CLSM_MEMORY) == std::errc::not_enough_memory);
    CHECK(std::error_code(CLSM_RUN_FULL) != std::errc::invalid_argument);
    const clsm::store wrong(clsm::options().with_epoch(3), code);
    CHECK(code == CLSM_BAD_EPOCH && code == std::errc::invalid_argument && !wrong);
}

// A handle tells whether it is open: it is not where opening it was refused, and once it was moved.
void openness() {
    clsm::store store(clsm::options().with_keys(1000));
    clsm::caller caller = store.caller();
    clsm::snapshot snapshot = caller.snapshot();
    clsm::scan scan = caller.range();
    CHECK(store && caller && snapshot && scan && caller.walk());
    CHECK(snapshot.number() < CLSM_SEATS && snapshot.number() != caller.number());
    const clsm::store other = std::move(store);
    const clsm::caller moved = std::move(caller);
    const clsm::snapshot view = std::move(snapshot);
    const clsm::scan rows = std::move(scan);
    CHECK(!store && !caller && !snapshot && !scan && other && moved && view && rows);
    std::error_code code;
    CHECK(!store.caller(code) && code == CLSM_BAD_POINTER && other.caller(code) && !code);
    CHECK(!caller.walk(0, 9, code) && code == CLSM_BAD_POINTER);
    CHECK(snapshot.number() == CLSM_SEATS);
}

// Writes that are made once, and answer why they were not made.
void tries() {
    const clsm::store store(clsm::options().with_keys(4).with_epoch(4).with_merge_in_calls());
    clsm::caller caller = store.caller();
    for (std::uint64_t key = 0; key < 4; key++) CHECK(caller.try_put(key, {key, 1}) == CLSM_OK);
    CHECK(caller.try_put(4, 1) == CLSM_FULL && caller.try_remove(0) == CLSM_FULL);
    CHECK(store.sweep() == CLSM_OK && caller.try_remove(0) == CLSM_OK && !caller.get(0));
    CHECK(caller.get(3) == value({3, 1}));
}

// Rows that are taken out, from either end.
void popping(clsm::caller &caller) {
    caller.write(clsm::batch().put(3, 30).put(5, 50).put(8, {80, 81}));
    CHECK(caller.pop_first(4, 7) == clsm::row({5, 50}) && !caller.pop_last(4, 7));
    CHECK(caller.pop_last() == clsm::row({8, {80, 81}}) && caller.pop_first() == clsm::row({3, 30}));
    CHECK(!caller.pop_first() && !caller.pop_last());
}

// The place that a loop was at is a copy of the iterator.
void postfix(clsm::caller &caller) {
    caller.write(clsm::batch().put(1, 10).put(2, 20));
    clsm::scan scan = caller.range(1, 2);
    clsm::scan::iterator at = scan.begin();
    const clsm::row first = *at++;
    CHECK(first.value == value(10) && at->key == 2);
    const clsm::scan::iterator before = at++;
    CHECK(before->value == value(20) && at == scan.end() && before != at && caller.clear() == 2);
}

// A loop over rows that need their snapshot or caller does not compile for one that is a temporary:
// `for (auto &row : store.snapshot().range())` would close it before the first row.
template <class Handle, class = void> struct has_range : std::false_type {};
template <class Handle> struct has_range<Handle, std::void_t<decltype(std::declval<Handle>().range())>> : std::true_type {};
template <class Handle, class = void> struct has_walk : std::false_type {};
template <class Handle> struct has_walk<Handle, std::void_t<decltype(std::declval<Handle>().walk())>> : std::true_type {};
static_assert(has_range<const clsm::snapshot &>() && !has_range<clsm::snapshot>() && !has_range<const clsm::snapshot>());
static_assert(has_walk<clsm::caller &>() && !has_walk<clsm::caller>());
static_assert(has_range<clsm::caller>(), "a scan outlives its caller");

// Iterators are those of the named requirement: what `*at++` answers outlives the next read.
void iterators(clsm::caller &caller) {
    static_assert(std::is_same_v<std::iterator_traits<clsm::scan::iterator>::value_type, clsm::row>);
    for (std::uint64_t key = 10; key < 13; key++) caller.put(key, 2 * key);
    clsm::scan scan = caller.range(10, 12);
    clsm::scan::iterator at = scan.begin();
    CHECK((*at++).key == 10 && at->key == 11);
    const clsm::row second = *at++;
    CHECK(second == (clsm::row{11, 22}) && at->key == 12 && ++at == scan.end());
    clsm::walk walk = caller.walk(10, 12);
    const std::vector<clsm::row> rows(walk.begin(), walk.end());
    CHECK(rows.size() == 3 && rows.back() == (clsm::row{12, 24}));
    for (const clsm::row &row : rows) caller.remove(row.key);
}

// The functions of clsm_codec.h are C++'s, too.
void codecs(clsm::caller &caller) {
    for (const std::int64_t number : {-2, 3, -1}) caller.put(clsm_key_of_signed(number), 1);
    std::int64_t last = -2;
    for (const auto &[key, value] : caller.range()) CHECK(clsm_signed_of_key(key) >= last && value == 1);
    clsm_value bytes;
    char back[CLSM_VALUE_BYTES];
    std::size_t length = 0;
    CHECK(clsm_value_of_bytes("green", 5, &bytes) && clsm_bytes_of_value(&bytes, back, &length));
    CHECK(std::string(back, length) == "green");
    for (const std::int64_t number : {-2, 3, -1}) caller.remove(clsm_key_of_signed(number));
}

void keys(clsm::caller &caller) {
    caller.put(7, {70, 71});
    caller.put(8, 80);
    CHECK(caller.get(7) == value({70, 71}) && caller.contains(8) && !caller.get(9));
    caller.remove(8);
    CHECK(!caller.contains(8) && caller.count() == 1 && caller.count(8) == 0 && caller.count(7, 7) == 1);
    CHECK(caller.time() <= caller.seen() && caller.number() < CLSM_SEATS);
    caller.follow(caller.seen());
    CHECK(thrown([&] { caller.follow(UINT64_MAX); }) == CLSM_BAD_VALUE);
}

void changes(clsm::caller &caller) {
    clsm::change made = caller.add(1, 5);
    CHECK(made.is_written && !made.before && made.after == value(5));
    made = caller.add(1, UINT64_MAX);
    CHECK(!made.is_written && made.before == value(5) && made.after == value(5));
    CHECK(!caller.put_if_absent(1, 6).is_written && caller.put_if_absent(2, 6).is_written);
    CHECK(caller.replace(2, value(6), value(7)).is_written && !caller.replace(2, value(6), nullopt).is_written);
    CHECK(caller.replace(2, value(7), nullopt).is_written && !caller.get(2));
    const auto halve = [](const std::optional<value> &old) {
        return old && old->front() > 1 ? std::optional<value>(old->front() / 2) : nullopt;
    };
    CHECK(caller.update(1, halve).after == value(2) && caller.update(1, halve).after == value(1));
    made = caller.update(1, halve);
    CHECK(made.is_written && made.before == value(1) && !made.after);
    CHECK(!caller.update(1, halve).is_written);
}

void batches(clsm::caller &caller) {
    clsm::batch batch;
    batch.put(20, 1).put(21, {2, 2}).remove(20);
    CHECK(batch.size() == 3 && !batch.empty());
    caller.write(batch);
    CHECK(!caller.get(20) && caller.get(21) == value({2, 2}));
    std::error_code code;
    caller.write(clsm::batch(), code);
    CHECK(code.value() == CLSM_EMPTY_BATCH && code.message() == clsm_strerror(CLSM_EMPTY_BATCH));
    CHECK(thrown([&] { caller.write(clsm::batch()); }) == CLSM_EMPTY_BATCH);
    batch.clear();
    batch.remove(21);
    caller.write(batch, code);
    CHECK(!code && !caller.contains(21));
}

// What several keys have at one moment, and batches that are written if that still stands.
void many(clsm::caller &caller) {
    caller.put(30, 3);
    caller.put(31, {4, 5});
    const std::vector<std::optional<value>> found = caller.get_many({31, 30, 32});
    CHECK(found.size() == 3 && found[0] == value({4, 5}) && found[1] == value(3) && !found[2]);
    CHECK(caller.get_many({}).empty() && caller.time() == caller.seen());
    clsm::conditions read;
    read.still(31, found[0]).still(30, found[1]).still(32, found[2]).count(30, 39, 2);
    std::size_t unmet = 9;
    CHECK(read.size() == 4 && !read.empty() && caller.write_if(read, clsm::batch(), &unmet) && unmet == 9);
    CHECK(caller.write_if(read, clsm::batch().put(33, 1).remove(30), &unmet) && unmet == 9);
    CHECK(!caller.get(30) && caller.get(33) == value(1));
    std::error_code code;
    CHECK(!caller.write_if(read, clsm::batch().put(34, 1), code, &unmet) && unmet == 1 && !code);
    CHECK(!caller.write_if(clsm::conditions().has(31, {4, 5}).count(30, 39, 3), clsm::batch(), &unmet) && unmet == 1);
    CHECK(caller.write_if(clsm::conditions().has_none(30), clsm::batch().remove(33)) && !caller.contains(33));
    CHECK(!caller.write_if(clsm::conditions().has_none(31), clsm::batch()));
    const clsm::store small(clsm::options().with_epoch(4));
    clsm::caller other = small.caller();
    clsm::batch long_one;
    for (std::uint64_t key = 0; key < 5; key++) long_one.put(key, 1);
    CHECK(!other.write_if({}, long_one, code) && code.value() == CLSM_BAD_BATCH);
    CHECK(thrown([&] { other.write_if({}, long_one); }) == CLSM_BAD_BATCH && other.count() == 0);
    read.clear();
    CHECK(read.empty() && caller.write_if(read, clsm::batch().remove(31)));
}

void transactions(const clsm::store &store) {
    clsm::caller caller = store.caller(), other = store.caller();
    caller.put(40, 10);
    other.follow(caller.seen());
    const auto left = caller.transact([](clsm::transaction &t) {
        const std::uint64_t had = t.get(40)->front();
        t.put(40, had - 3);
        t.put(41, {1, 2});
        t.remove(42);
        CHECK(t.get(40) == value(7) && t.contains(41) && !t.contains(42));
        CHECK(t.get_many({41, 42})[0] == value({1, 2}) && t.page(40, 49, 9).rows.size() == 2);
        CHECK(t.page(40, 49, 1).next == 41 && !t.add(41, 1).is_written && t.add(43, 5).after == value(5));
        return had;
    });
    CHECK(left == 10 && caller.get(40) == value(7) && caller.get(43) == value(5));
    // It runs again where another one was faster, up to a bound; and one that throws writes nothing.
    int runs = 0;
    caller.transact([&](clsm::transaction &t) {
        t.put(41, *t.get(40));
        if (++runs < 3) other.add(40, 1);
    });
    CHECK(runs == 3 && caller.get(41) == value(9));
    const auto disturbed = [&](clsm::transaction &t) {
        t.put(41, *t.get(40));
        other.add(40, 1);
    };
    CHECK(thrown([&] { caller.transact(disturbed, 5); }) == CLSM_CONFLICT);
    CHECK(caller.get(40) == value(14) && caller.get(41) == value(9));
    try {
        caller.transact([](clsm::transaction &t) {
            t.remove(40);
            throw 7;
        });
    } catch (int) {
        runs = 7;
    }
    CHECK(runs == 7 && caller.contains(40) && store.stats().snapshots == 0);
    CHECK(store.transact([](clsm::transaction &t) { return t.add(44, 1).after; }) == value(1));
    store.transact([](clsm::transaction &t) { t.remove(44); });
    CHECK(!store.caller().contains(44));
    for (std::uint64_t key = 40; key < 44; key++) caller.remove(key);
}

// Both ends of a range, rows by falling key, and a count, each with its own writes; and what of them
// is a conflict.
void transactions_downwards(clsm::caller &caller, clsm::caller &other) {
    enum { ROWS = 700 };
    for (std::uint64_t key = 0; key < ROWS; key++) caller.put(5000 + key, key);
    other.follow(caller.seen());
    caller.transact([](clsm::transaction &t) {
        CHECK(t.first(5000) == (clsm::row{5000, 0}) && t.last() == (clsm::row{5699, 699}));
        t.remove(5000);
        t.remove(5699);
        t.put(5800, 8);
        CHECK(t.first(5000, 6000) == (clsm::row{5001, 1}) && t.last(5000, 5799) == (clsm::row{5698, 698}));
        CHECK(!t.first(5801) && !t.last(5, 4) && t.last() == (clsm::row{5800, 8}));
        CHECK(t.count(5000) == ROWS - 1 && t.count(5000, 5001) == 1 && t.count() >= ROWS - 1 && t.count(5, 4) == 0);
        clsm::page page = t.page_down(UINT64_MAX, 5000, 600);
        CHECK(page.rows.size() == 600 && page.rows[0] == (clsm::row{5800, 8}) && page.next == 5099);
        page = t.page_down(*page.next, 5000, SIZE_MAX);
        CHECK(page.rows.size() == 99 && page.rows[98] == (clsm::row{5001, 1}) && !page.next);
    });
    int runs = 0;
    caller.transact([&](clsm::transaction &t) {
        t.put(5900, t.count(5000, 5799) + t.last(5000, 5799)->key + t.page_down(5099, 5090, 1).rows[0].key);
        if (++runs < 3) other.remove(runs == 1 ? 5098 : 5697);
        else other.put(5001, 77);
    });
    CHECK(runs == 3 && caller.get(5900) == value(ROWS - 4 + 5698 + 5099));
    caller.remove_range(5000, 5900);
}

void transacting_threads() {
    const clsm::store store(clsm::options().with_epoch(64));
    store.caller().put(2, 100);
    std::vector<std::thread> threads;
    for (int i = 0; i < 4; i++)
        threads.emplace_back([&store] {
            clsm::caller caller = store.caller();
            for (int j = 0; j < 200; j++)
                caller.transact(
                    [](clsm::transaction &t) {
                        const auto both = t.get_many({1, 2});
                        const std::uint64_t one = both[0] ? both[0]->front() : 0, two = both[1]->front();
                        CHECK(one + two == 100);
                        t.put(1, two > 0 ? one + 1 : 0);
                        t.put(2, two > 0 ? two - 1 : 100);
                    },
                    100000);
        });
    for (std::thread &thread : threads) thread.join();
    CHECK(store.caller().get(1)->front() + store.caller().get(2)->front() == 100);
}

// Both ends of a range, and rows by falling key.
void downwards(clsm::caller &caller) {
    enum { ROWS = 700 };
    for (std::uint64_t key = 0; key < ROWS; key++) caller.put(5000 + key, key);
    const clsm::snapshot snapshot = caller.snapshot();
    for (std::uint64_t key = 0; key < ROWS; key += 2) caller.remove(5000 + key);
    CHECK(caller.first(5000, 6000) == (clsm::row{5001, 1}) && caller.last(0, 5698) == (clsm::row{5697, 697}));
    CHECK(snapshot.first(5000) == (clsm::row{5000, 0}) && snapshot.last(5000) == (clsm::row{5699, 699}));
    CHECK(!caller.first(7000) && !caller.last(5, 4) && !snapshot.first(7000) && !snapshot.last(5, 4));
    CHECK(snapshot.get_many({5000, 5001, 6000}) == (std::vector<std::optional<value>>{value(0), value(1), nullopt}));
    std::uint64_t next = ROWS;
    auto rows = snapshot.range_down(6000, 5000);
    for (const auto &[key, value] : rows) CHECK(key == 5000 + --next && value == next);
    CHECK(next == 0);
    clsm::page page = snapshot.page_down(UINT64_MAX, 5000, 600);
    CHECK(page.rows.size() == 600 && page.rows[0].key == 5699 && page.next == 5099);
    page = caller.page_down(*page.next, 5000, SIZE_MAX);
    CHECK(page.rows.size() == 50 && page.rows[0].key == 5099 && page.rows[49].key == 5001 && !page.next);
    for (std::uint64_t key = 0; key < ROWS; key++) caller.remove(5000 + key);
}

// All rows are there, in order, by each of the ways.
void ranges(clsm::caller &caller) {
    enum { ROWS = 700 };
    for (std::uint64_t key = 0; key < ROWS; key++) caller.put(1000 + key, {key, 1});
    const clsm::snapshot snapshot = caller.snapshot();
    std::uint64_t next = 0;
    for (const auto &[key, value] : caller.walk(1000)) {
        CHECK(key == 1000 + next++ && value.size() == 2);
        if (key % 2 == 0) caller.remove(key);
    }
    CHECK(next == ROWS && caller.count(1000) == ROWS / 2);
    next = 0;
    auto rows = snapshot.range(1000, 1000 + ROWS - 1);
    for (const clsm::row &row : rows) CHECK(row.key == 1000 + next && row.value[0] == next++);
    CHECK(next == ROWS && snapshot.count(1000) == ROWS && snapshot.get(1000) == value({0, 1}));
    clsm::scan odd = caller.range(1000);
    CHECK(std::count_if(odd.begin(), odd.end(), [](const clsm::row &row) { return row.key % 2 == 1; }) == ROWS / 2);
    CHECK(odd.begin() == odd.end());
    clsm::page page = snapshot.page(1000, UINT64_MAX, 600);
    CHECK(page.rows.size() == 600 && page.rows.back().key == 1599 && page.next == 1600);
    page = caller.page(1000, UINT64_MAX, SIZE_MAX);
    CHECK(page.rows.size() == ROWS / 2 && !page.next);
    CHECK(caller.page(1000, 2000, 0).next == 1001 && caller.page(5, 4, 9).rows.empty());
}

// What is opened last may be closed last: each handle keeps the store.
void lives() {
    auto opened = std::make_unique<clsm::store>(clsm::options().with_keys(1000).with_epoch(64));
    auto caller = std::make_unique<clsm::caller>(opened->caller());
    caller->put(1, 10);
    clsm::snapshot snapshot = caller->snapshot();
    clsm::scan scan = caller->range();
    opened.reset();
    caller.reset();
    CHECK(snapshot.get(1) == value(10) && (*scan.begin()).key == 1);
    clsm::store other;
    snapshot = other.snapshot(); // closes the first one, and no store before it
    CHECK(!snapshot.get(1) && other.stats().snapshots == 1);
    clsm::caller moved = other.caller();
    clsm::caller kept = std::move(moved);
    kept.put(2, 20);
    CHECK(other.stats().callers == 1 && other.sweep() <= CLSM_IDLE);
}

void refusals() {
    std::error_code code;
    const clsm::store refused(clsm::options().with_epoch(3), code);
    CHECK(!refused.raw() && code.value() == CLSM_BAD_EPOCH && code.category() == clsm::category());
    CHECK(thrown([] { clsm::store(clsm::options().with_patience(99)); }) == CLSM_BAD_PATIENCE);
    CHECK(clsm::category().equivalent(CLSM_MEMORY, std::make_error_condition(std::errc::not_enough_memory)));
    clsm::store full(clsm::options().with_keys(1).with_epoch(4).with_wait(-1).with_versions(88));
    clsm::caller caller = full.caller();
    std::uint64_t key = 0;
    for (code.clear(); !code; key++) caller.put(key, key, code);
    CHECK(code.value() == CLSM_RUN_FULL && thrown([&] { caller.add(key, 1); }) == CLSM_RUN_FULL);
    const clsm::snapshot own = caller.snapshot();
    for (code.clear(); !code;) caller.remove(0, code);
    CHECK(code.value() == CLSM_OWN_SNAPSHOT);
}

// Ranges that are removed, all of it, and a copy into a larger store.
void copies() {
    enum { ROWS = 700 };
    std::error_code code;
    const clsm::store small(clsm::options().with_keys(ROWS));
    clsm::caller caller = small.caller();
    for (std::uint64_t key = 0; key < ROWS; key++) caller.put(key, {key, 1});
    const clsm::store large = small.copy(clsm::options().with_keys(2 * ROWS));
    CHECK(caller.remove_range(100, 199) == 100 && caller.remove_range(100, 199, code) == 0 && !code);
    CHECK(caller.remove_range(5, 4) == 0 && caller.count() == ROWS - 100 && !caller.get(199) && caller.get(200));
    clsm::caller other = large.caller();
    CHECK(other.count() == ROWS && other.get(199) == value({199, 1}));
    for (std::uint64_t key = ROWS; key < 2 * ROWS; key++) other.put(key, 1);
    const clsm::store less = large.copy(clsm::options().with_keys(ROWS), code);
    CHECK(!less.raw() && code.value() == CLSM_RUN_FULL);
    CHECK(thrown([&] { large.copy(clsm::options().with_epoch(3)); }) == CLSM_BAD_EPOCH);
    CHECK(large.copy().caller().count() == 2 * ROWS && large.copy({}, code).raw() && !code);
    CHECK(caller.clear() == ROWS - 100 && caller.clear(code) == 0 && !code && !caller.first());
    CHECK(other.count() == 2 * ROWS && small.stats().snapshots == 0);
}

// One that is refused in the middle tells how far it came, if it does not throw.
void refused_removals() {
    std::error_code code;
    const clsm::store store(clsm::options().with_keys(300).with_epoch(16).with_wait(-1));
    clsm::caller caller = store.caller();
    for (std::uint64_t key = 0; key < 300; key++) caller.put(key, key);
    store.sweep();
    {
        const clsm::snapshot snapshot = caller.snapshot();
        for (code.clear(); !code;) caller.put(299, 0, code);
        const std::uint64_t removed = caller.clear(code);
        CHECK(code.value() == CLSM_OWN_SNAPSHOT && caller.count() == 300 - removed);
        CHECK(thrown([&] { caller.clear(); }) == CLSM_OWN_SNAPSHOT);
    }
    const std::uint64_t left = caller.count();
    CHECK(caller.clear() == left);
}

// Handles that are refused are empty, where the code is set.
void empty_handles() {
    std::error_code code;
    const clsm::store store;
    std::vector<clsm::snapshot> snapshots;
    clsm::caller caller = store.caller(code);
    CHECK(!code);
    caller.put(1, 10);
    snapshots.push_back(caller.snapshot(code));
    CHECK(!code && snapshots[0].get(1) == value(10));
    CHECK(caller.range(0, 9, code).begin()->key == 1 && !code);
    auto walk = caller.walk(0, 9, code);
    CHECK(walk.begin()->key == 1 && !code);
    while (!code) snapshots.push_back(store.snapshot(code));
    CHECK(code.value() == CLSM_NO_SEAT && !snapshots.back().raw() && snapshots.size() == CLSM_SEATS);
    CHECK(!caller.snapshot(code).raw() && code.value() == CLSM_NO_SEAT);
    code.clear();
    const clsm::caller none = store.caller(code);
    CHECK(code.value() == CLSM_NO_SEAT && !none.raw() && thrown([&] { none.get(1); }) == CLSM_BAD_POINTER);
    code.clear();
    clsm::scan scan = caller.range(0, 9, code);
    CHECK(code.value() == CLSM_NO_SEAT && thrown([&] { scan.begin(); }) == CLSM_BAD_POINTER);
    CHECK(thrown([&] { store.caller(); }) == CLSM_NO_SEAT && thrown([&] { store.snapshot(); }) == CLSM_NO_SEAT);
    CHECK(thrown([&] { caller.range(); }) == CLSM_NO_SEAT && thrown([&] { caller.snapshot(); }) == CLSM_NO_SEAT);
    snapshots.pop_back();
    snapshots.pop_back();
    caller.follow(caller.seen(), code);
    CHECK(!code && store.caller(code).raw() && !code);
    caller.follow(UINT64_MAX, code);
    CHECK(code.value() == CLSM_BAD_VALUE);
}

void threads() {
    const clsm::store store(clsm::options().with_merge_in_calls().with_epoch(64));
    std::vector<std::thread> threads;
    for (int i = 0; i < 4; i++)
        threads.emplace_back([&store] {
            clsm::caller caller = store.caller();
            for (int j = 0; j < 500; j++) caller.add(1, 1);
        });
    for (std::thread &thread : threads) thread.join();
    CHECK(store.caller().get(1) == value(2000));
}

static_assert(!std::is_copy_constructible_v<clsm::caller> && std::is_nothrow_move_constructible_v<clsm::caller>);
static_assert(std::is_nothrow_move_assignable_v<clsm::snapshot> && !std::is_copy_assignable_v<clsm::scan>);

} // namespace

int main() {
    values();
    codes();
    openness();
    tries();
    {
        const clsm::store store;
        clsm::caller caller = store.caller();
        iterators(caller);
        postfix(caller);
        popping(caller);
        codecs(caller);
        keys(caller);
        changes(caller);
        batches(caller);
        many(caller);
        downwards(caller);
        transactions(store);
        clsm::caller other = store.caller();
        transactions_downwards(caller, other);
        ranges(caller);
    }
    lives();
    refusals();
    copies();
    refused_removals();
    empty_handles();
    threads();
    transacting_threads();
    std::puts("ok cxx17");
}
