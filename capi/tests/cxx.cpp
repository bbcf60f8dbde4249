// The header in C++11: handles in unique_ptr, threads of the standard library.
#include "../clsm.h"

#include <cstdio>
#include <cstdlib>
#include <memory>
#include <thread>
#include <vector>

#define CHECK(holds)                                                                               \
    do {                                                                                           \
        if (!(holds)) {                                                                            \
            std::fprintf(stderr, "%s:%d: %s\n", __FILE__, __LINE__, #holds);                       \
            std::exit(1);                                                                          \
        }                                                                                          \
    } while (0)

namespace {

struct Close {
    void operator()(clsm_store *store) const { CHECK(clsm_close(store) == CLSM_OK); }
    void operator()(clsm_caller *caller) const { clsm_caller_close(caller); }
    void operator()(clsm_snapshot *snapshot) const { clsm_snapshot_close(snapshot); }
    void operator()(clsm_scan *scan) const { clsm_scan_close(scan); }
};

template <typename Handle> using Owned = std::unique_ptr<Handle, Close>;

Owned<clsm_store> open(const clsm_options &options) {
    clsm_store *store = nullptr;
    CHECK(clsm_open(&options, &store) == CLSM_OK);
    return Owned<clsm_store>(store);
}

Owned<clsm_caller> caller_of(clsm_store *store) {
    clsm_caller *caller = nullptr;
    CHECK(clsm_caller_open(store, &caller) == CLSM_OK);
    return Owned<clsm_caller>(caller);
}

Owned<clsm_snapshot> snapshot_of(clsm_caller *caller) {
    clsm_snapshot *snapshot = nullptr;
    CHECK(clsm_snapshot_open(caller, &snapshot) == CLSM_OK);
    return Owned<clsm_snapshot>(snapshot);
}

Owned<clsm_scan> scan_of(clsm_caller *caller) {
    clsm_scan *scan = nullptr;
    CHECK(clsm_scan_open(caller, 0, UINT64_MAX, &scan) == CLSM_OK);
    return Owned<clsm_scan>(scan);
}

void put_keys(clsm_store *store, std::uint64_t thread) {
    auto caller = caller_of(store);
    for (std::uint64_t i = 0; i < 1000; i++) {
        const std::uint64_t words[] = {i, thread};
        CHECK(clsm_put(caller.get(), 4 * i + thread, words, 2) == CLSM_OK);
    }
}

void count_rows(clsm_caller *caller) {
    auto scan = scan_of(caller);
    clsm_row row;
    std::uint64_t rows = 0;
    while (clsm_scan_next(scan.get(), &row) == CLSM_OK) {
        CHECK(row.key == rows && row.value.words[0] == rows / 4 && row.value.words[1] == rows % 4);
        rows++;
    }
    CHECK(rows == 4000);
}

} // namespace

int main() {
    clsm_options options = {};
    options.epoch = 64;
    auto store = open(options);
    std::vector<std::thread> threads;
    for (std::uint64_t i = 0; i < 4; i++) threads.emplace_back(put_keys, store.get(), i);
    for (auto &thread : threads) thread.join();
    auto caller = caller_of(store.get());
    auto snapshot = snapshot_of(caller.get());
    CHECK(clsm_remove(caller.get(), 7) == CLSM_OK);
    CHECK(clsm_get(caller.get(), 7, nullptr) == CLSM_NOT_FOUND);
    clsm_value value;
    CHECK(clsm_snapshot_get(snapshot.get(), 7, &value) == CLSM_OK && value.length == 2);
    const std::uint64_t words[] = {1, 3};
    CHECK(clsm_put(caller.get(), 7, words, 2) == CLSM_OK);
    count_rows(caller.get());
    std::puts("ok cxx");
    return 0;
}
