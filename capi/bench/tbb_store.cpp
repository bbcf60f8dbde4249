// concurrent_map of oneTBB, a skip list, with atomic words. Several keys are read one after another,
// at no moment in common.
#include "player.h"

#if __has_include(<oneapi/tbb/concurrent_map.h>)

#include <oneapi/tbb/concurrent_map.h>

namespace bench {

namespace {

using Map = tbb::concurrent_map<std::uint64_t, std::atomic<std::uint64_t>>;

class TbbCaller {
public:
    explicit TbbCaller(Map &map) : map_(&map) {}

    void put(std::uint64_t key, std::uint64_t word) {
        const auto found = map_->find(key);
        if (found != map_->end()) return found->second.store(word);
        const auto [at, is_new] = map_->emplace(key, word);
        if (!is_new) at->second.store(word);
    }

    bool get(std::uint64_t key, std::uint64_t &word) {
        const auto found = map_->find(key);
        if (found == map_->end()) return false;
        word = found->second.load();
        return true;
    }

    void remove(std::uint64_t) { throw Failure("tbb: no removal beside other calls"); }

    std::uint64_t add(std::uint64_t key, std::uint64_t by) {
        const auto found = map_->find(key);
        const auto at = found != map_->end() ? found : map_->emplace(key, 0).first;
        return at->second.fetch_add(by);
    }

    template <class Visit> void get_many(const std::vector<std::uint64_t> &keys, Visit visit) {
        for (const std::uint64_t key : keys) {
            std::uint64_t word = 0;
            const bool is_there = get(key, word);
            visit(key, is_there, word);
        }
    }

    template <class Visit> std::size_t scan_down(std::uint64_t, std::size_t, Visit) {
        throw Failure("tbb: no rows by falling key");
    }

    std::pair<std::uint64_t, std::uint64_t> transfer(std::uint64_t, std::uint64_t, std::uint64_t) {
        throw Failure("tbb: no two words in one step");
    }

    template <class Visit> std::size_t scan(std::uint64_t first, std::size_t room, Visit visit) {
        std::size_t rows = 0;
        for (auto at = map_->lower_bound(first); at != map_->end() && rows < room; ++at, rows++)
            visit(at->first, at->second.load());
        return rows;
    }

private:
    Map *map_;
};

class TbbStore {
public:
    using Caller = TbbCaller;
    static constexpr const char *name = "tbb", *title = "oneTBB";

    static bool plays(const Workload &workload) {
        return !workload.has(Act::remove) && !workload.has(Act::scan_down) && !workload.has(Act::transfer);
    }

    explicit TbbStore(std::size_t) {}

    TbbCaller caller() { return TbbCaller(map_); }

private:
    Map map_;
};

} // namespace

std::unique_ptr<Entrant> make_tbb() { return std::make_unique<EntrantOf<TbbStore>>(); }

} // namespace bench

#else

namespace bench {

std::unique_ptr<Entrant> make_tbb() { return nullptr; }

} // namespace bench

#endif
