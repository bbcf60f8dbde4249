#include "border.h"

#include "../clsm.h"
#include "../core/clsm_core.h"
#include "entrant.h"
#include "random.h"

#include <chrono>
#include <dlfcn.h>
#include <memory>

namespace bench {

namespace {

constexpr std::size_t epoch = 65536, keys = 100000, patience = 16;
constexpr std::uint64_t puts = 30000, gets = 1000000; // below half an epoch: nothing is merged
constexpr std::uint64_t hot = 16;

void check(int code) {
    if (code != CLSM_OK) throw Failure(std::string("border: ") + clsm_strerror(code));
}

// ---- clsm.h, of the archive and of the shared library

struct Archive {
    int open(const clsm_options *options, clsm_store **store) const { return clsm_open(options, store); }
    int close(clsm_store *store) const { return clsm_close(store); }
    int caller_open(clsm_store *store, clsm_caller **caller) const { return clsm_caller_open(store, caller); }
    void caller_close(clsm_caller *caller) const { clsm_caller_close(caller); }
    int put(clsm_caller *caller, std::uint64_t key, const std::uint64_t *words, std::size_t count) const {
        return clsm_put(caller, key, words, count);
    }
    int get(clsm_caller *caller, std::uint64_t key, clsm_value *value) const { return clsm_get(caller, key, value); }
};

class Library {
public:
    explicit Library(const char *name) : handle_(dlopen(name, RTLD_NOW | RTLD_LOCAL)) {}

    bool is_there() const { return handle_ != nullptr; }

    template <class Function> Function *find(const char *name) const {
        void *found = dlsym(handle_.get(), name);
        if (!found) throw Failure(std::string("border: no ") + name);
        return reinterpret_cast<Function *>(found);
    }

private:
    struct Close {
        void operator()(void *handle) const { dlclose(handle); }
    };
    std::unique_ptr<void, Close> handle_;
};

struct Shared {
    explicit Shared(const Library &library)
        : open(library.find<decltype(clsm_open)>("clsm_open")),
          close(library.find<decltype(clsm_close)>("clsm_close")),
          caller_open(library.find<decltype(clsm_caller_open)>("clsm_caller_open")),
          caller_close(library.find<decltype(clsm_caller_close)>("clsm_caller_close")),
          put(library.find<decltype(clsm_put)>("clsm_put")), get(library.find<decltype(clsm_get)>("clsm_get")) {}

    decltype(clsm_open) *open;
    decltype(clsm_close) *close;
    decltype(clsm_caller_open) *caller_open;
    decltype(clsm_caller_close) *caller_close;
    decltype(clsm_put) *put;
    decltype(clsm_get) *get;
};

template <class Functions> class Header {
public:
    explicit Header(const Functions &functions) : functions_(functions) {
        clsm_options options = {};
        options.keys = keys;
        options.epoch = epoch;
        check(functions_.open(&options, &store_));
        check(functions_.caller_open(store_, &caller_));
    }
    ~Header() {
        functions_.caller_close(caller_);
        functions_.close(store_);
    }
    Header(const Header &) = delete;
    Header &operator=(const Header &) = delete;

    void put(std::uint64_t key) { check(functions_.put(caller_, key, &key, 1)); }
    std::uint64_t get(std::uint64_t key) {
        clsm_value value;
        check(functions_.get(caller_, key, &value));
        return value.words[0];
    }

private:
    Functions functions_;
    clsm_store *store_ = nullptr;
    clsm_caller *caller_ = nullptr;
};

// ---- The core

class Core {
public:
    Core() {
        const clsm_core_sizes sizes = {epoch, CLSM_SEATS, 1, keys + 4 * epoch, patience};
        clsm_core_code answer;
        clsm_core_open(&sizes, &answer, &store_);
        clsm_core_take_caller(&store_, &answer, &caller_);
    }
    ~Core() {
        clsm_core_drop_caller(&caller_);
        clsm_core_close(&store_);
    }
    Core(const Core &) = delete;
    Core &operator=(const Core &) = delete;

    void put(std::uint64_t key) {
        clsm_core_row ask = {key, {1, {key}}};
        clsm_core_time answer;
        check(static_cast<int>(clsm_core_try_put(&caller_, &ask, &answer)));
    }
    std::uint64_t get(std::uint64_t key) {
        const clsm_core_key ask = {key};
        clsm_core_got answer;
        check(static_cast<int>(clsm_core_get(&caller_, &ask, &answer)));
        return answer.value.words[0];
    }

private:
    clsm_core_store store_;
    clsm_core_caller caller_;
};

// ---- Measuring

using Clock = std::chrono::steady_clock;

double nanoseconds_since(Clock::time_point begin, std::uint64_t calls) {
    return std::chrono::duration<double, std::nano>(Clock::now() - begin).count() / static_cast<double>(calls);
}

// Puts at keys that are new, then gets of some of the last.
template <class Way> void measure(Way &&way, Crossing &crossing) {
    Clock::time_point begin = Clock::now();
    for (std::uint64_t i = 0; i < puts; i++) way.put(mix(i));
    crossing.put.add(nanoseconds_since(begin, puts));
    std::uint64_t sum = 0, right = 0;
    begin = Clock::now();
    for (std::uint64_t i = 0; i < gets; i++) sum += way.get(mix(puts - 1 - i % hot));
    crossing.get.add(nanoseconds_since(begin, gets));
    for (std::uint64_t i = 0; i < gets; i++) right += mix(puts - 1 - i % hot);
    if (sum != right) throw Failure("border: a get was wrong");
}

} // namespace

std::vector<Crossing> measure_border(std::uint64_t repeat) {
    const Library library("libclsm.so");
    std::vector<Crossing> crossings = {
        {"clsm", "clsm.h", {}, {}}, {"core", "the core alone", {}, {}}, {"clsm.so", "the shared library", {}, {}}};
    if (!library.is_there()) crossings.pop_back();
    for (std::uint64_t i = 0; i < repeat; i++) {
        measure(Header<Archive>(Archive()), crossings[0]);
        measure(Core(), crossings[1]);
        if (library.is_there()) measure(Header<Shared>(Shared(library)), crossings[2]);
    }
    return crossings;
}

} // namespace bench
