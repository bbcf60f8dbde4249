// The store of clsm.h. Each call is one call of that header, but for a transfer: that reads both
// words, and writes them if they still stand, until they do.
#include "../clsm.h"
#include "player.h"

namespace bench {

namespace {

void check(int code) {
    if (code != CLSM_OK) throw Failure(std::string("clsm: ") + clsm_strerror(code));
}

struct Close {
    void operator()(clsm_store *store) const { clsm_close(store); }
    void operator()(clsm_caller *caller) const { clsm_caller_close(caller); }
};

template <typename Handle> using Owned = std::unique_ptr<Handle, Close>;

class ClsmCaller {
public:
    explicit ClsmCaller(clsm_store *store) {
        clsm_caller *caller = nullptr;
        check(clsm_caller_open(store, &caller));
        caller_.reset(caller);
    }

    void put(std::uint64_t key, std::uint64_t word) { check(clsm_put(caller_.get(), key, &word, 1)); }

    bool get(std::uint64_t key, std::uint64_t &word) {
        clsm_value value;
        const int code = clsm_get(caller_.get(), key, &value);
        if (code == CLSM_NOT_FOUND) return false;
        check(code);
        word = value.words[0];
        return true;
    }

    void remove(std::uint64_t key) { check(clsm_remove(caller_.get(), key)); }

    std::uint64_t add(std::uint64_t key, std::uint64_t by) {
        clsm_changed changed;
        check(clsm_add(caller_.get(), key, by, &changed));
        return changed.before.words[0];
    }

    template <class Visit> std::size_t scan(std::uint64_t first, std::size_t room, Visit visit) {
        clsm_page_end end;
        if (rows_.size() < room) rows_.resize(room);
        check(clsm_page(caller_.get(), first, UINT64_MAX, rows_.data(), room, &end));
        for (std::size_t i = 0; i < end.rows; i++) visit(rows_[i].key, rows_[i].value.words[0]);
        return end.rows;
    }

    // One row is the last one of its range.
    template <class Visit> std::size_t scan_down(std::uint64_t last, std::size_t room, Visit visit) {
        if (room == 1) return find_last(last, visit);
        clsm_page_end end;
        if (rows_.size() < room) rows_.resize(room);
        check(clsm_page_down(caller_.get(), last, 0, rows_.data(), room, &end));
        for (std::size_t i = 0; i < end.rows; i++) visit(rows_[i].key, rows_[i].value.words[0]);
        return end.rows;
    }

    template <class Visit> void get_many(const std::vector<std::uint64_t> &keys, Visit visit) {
        if (values_.size() < keys.size()) values_.resize(keys.size());
        check(clsm_get_many(caller_.get(), keys.data(), keys.size(), values_.data()));
        for (std::size_t i = 0; i < keys.size(); i++) visit(keys[i], values_[i].length > 0, values_[i].words[0]);
    }

    std::pair<std::uint64_t, std::uint64_t> transfer(std::uint64_t from, std::uint64_t to, std::uint64_t by) {
        const std::uint64_t keys[] = {from, to};
        for (;;) {
            clsm_value values[2];
            check(clsm_get_many(caller_.get(), keys, 2, values));
            const clsm_row expected[] = {{from, values[0]}, {to, values[1]}};
            clsm_row rows[] = {expected[0], expected[1]};
            rows[0].value.words[0] -= by;
            rows[1].value.words[0] += by;
            const int code = clsm_batch_if(caller_.get(), expected, 2, nullptr, 0, rows, 2, nullptr);
            if (code == CLSM_KEPT) continue;
            check(code);
            return {values[0].words[0], values[1].words[0]};
        }
    }

private:
    template <class Visit> std::size_t find_last(std::uint64_t last, Visit visit) {
        clsm_row row;
        const int code = clsm_last(caller_.get(), 0, last, &row);
        if (code == CLSM_NOT_FOUND) return 0;
        check(code);
        visit(row.key, row.value.words[0]);
        return 1;
    }

    Owned<clsm_caller> caller_;
    std::vector<clsm_row> rows_;
    std::vector<clsm_value> values_;
};

// The same answers by gets of one key, and of dense keys by pages upwards.
class PlainCaller : public ClsmCaller {
public:
    using ClsmCaller::ClsmCaller;

    template <class Visit> std::size_t scan_down(std::uint64_t last, std::size_t room, Visit visit) {
        const std::uint64_t span = key_of(Layout::dense, room - 1);
        page_.clear();
        scan(last < span ? 0 : last - span, last < span ? last / 2 + 1 : room,
             [this](std::uint64_t key, std::uint64_t word) { page_.emplace_back(key, word); });
        for (std::size_t i = page_.size(); i-- > 0;) visit(page_[i].first, page_[i].second);
        return page_.size();
    }

    template <class Visit> void get_many(const std::vector<std::uint64_t> &keys, Visit visit) {
        for (const std::uint64_t key : keys) {
            std::uint64_t word = 0;
            const bool is_there = get(key, word);
            visit(key, is_there, word);
        }
    }

private:
    std::vector<std::pair<std::uint64_t, std::uint64_t>> page_;
};

struct Naming {
    const char *name, *title;
};

constexpr Naming naming_of(std::size_t epoch) {
    switch (epoch) {
    case 4096: return {"clsm-4096", "epochs of 4,096"};
    case 16384: return {"clsm-16384", "epochs of 16,384"};
    case 65536: return {"clsm-65536", "epochs of 65,536"};
    default: return {"clsm", "clsm"};
    }
}

// With epochs of so many writes, or, for 0, as the library chooses.
template <std::size_t epoch> class ClsmStore {
public:
    using Caller = ClsmCaller;
    static constexpr const char *name = naming_of(epoch).name, *title = naming_of(epoch).title;
    static bool plays(const Workload &) { return true; }

    explicit ClsmStore(std::size_t keys) {
        clsm_options options = {};
        options.keys = keys;
        options.epoch = epoch;
        clsm_store *store = nullptr;
        check(clsm_open(&options, &store));
        store_.reset(store);
    }

    ClsmCaller caller() { return ClsmCaller(store_.get()); }

protected:
    clsm_store *store() { return store_.get(); }

private:
    Owned<clsm_store> store_;
};

class PlainStore : public ClsmStore<0> {
public:
    using Caller = PlainCaller;
    using ClsmStore::ClsmStore;
    static constexpr const char *name = "clsm-plain", *title = "clsm, one by one and upwards";

    static bool plays(const Workload &workload) {
        return workload.has(Act::get_many) || (workload.has(Act::scan_down) && workload.rows > 1);
    }

    PlainCaller caller() { return PlainCaller(store()); }
};

} // namespace

std::unique_ptr<Entrant> make_clsm() { return std::make_unique<EntrantOf<ClsmStore<0>>>(); }
std::unique_ptr<Entrant> make_clsm_4096() { return std::make_unique<EntrantOf<ClsmStore<4096>>>(); }
std::unique_ptr<Entrant> make_clsm_16384() { return std::make_unique<EntrantOf<ClsmStore<16384>>>(); }
std::unique_ptr<Entrant> make_clsm_65536() { return std::make_unique<EntrantOf<ClsmStore<65536>>>(); }
std::unique_ptr<Entrant> make_clsm_plain() { return std::make_unique<EntrantOf<PlainStore>>(); }

} // namespace bench
