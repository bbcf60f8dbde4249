// std::map, under std::shared_mutex.
#include "player.h"

#include <iterator>
#include <map>
#include <mutex>
#include <shared_mutex>

namespace bench {

namespace {

struct LockedMap {
    std::map<std::uint64_t, std::uint64_t> map;
    std::shared_mutex mutex;
};

class MapCaller {
public:
    explicit MapCaller(LockedMap &shared) : shared_(&shared) {}

    void put(std::uint64_t key, std::uint64_t word) {
        const std::unique_lock lock(shared_->mutex);
        shared_->map.insert_or_assign(key, word);
    }

    bool get(std::uint64_t key, std::uint64_t &word) {
        const std::shared_lock lock(shared_->mutex);
        const auto found = shared_->map.find(key);
        if (found == shared_->map.end()) return false;
        word = found->second;
        return true;
    }

    void remove(std::uint64_t key) {
        const std::unique_lock lock(shared_->mutex);
        shared_->map.erase(key);
    }

    std::uint64_t add(std::uint64_t key, std::uint64_t by) {
        const std::unique_lock lock(shared_->mutex);
        std::uint64_t &word = shared_->map[key];
        const std::uint64_t before = word;
        word += by;
        return before;
    }

    template <class Visit> std::size_t scan(std::uint64_t first, std::size_t room, Visit visit) {
        const std::shared_lock lock(shared_->mutex);
        std::size_t rows = 0;
        for (auto at = shared_->map.lower_bound(first); at != shared_->map.end() && rows < room; ++at, rows++)
            visit(at->first, at->second);
        return rows;
    }

    template <class Visit> std::size_t scan_down(std::uint64_t last, std::size_t room, Visit visit) {
        const std::shared_lock lock(shared_->mutex);
        std::size_t rows = 0;
        const auto above = shared_->map.upper_bound(last);
        for (auto at = std::make_reverse_iterator(above); at != shared_->map.rend() && rows < room; ++at, rows++)
            visit(at->first, at->second);
        return rows;
    }

    template <class Visit> void get_many(const std::vector<std::uint64_t> &keys, Visit visit) {
        const std::shared_lock lock(shared_->mutex);
        for (const std::uint64_t key : keys) {
            const auto found = shared_->map.find(key);
            const bool is_there = found != shared_->map.end();
            visit(key, is_there, is_there ? found->second : 0);
        }
    }

    std::pair<std::uint64_t, std::uint64_t> transfer(std::uint64_t from, std::uint64_t to, std::uint64_t by) {
        const std::unique_lock lock(shared_->mutex);
        std::uint64_t &giver = shared_->map[from], &taker = shared_->map[to];
        const std::pair before(giver, taker);
        giver -= by;
        taker += by;
        return before;
    }

private:
    LockedMap *shared_;
};

class MapStore {
public:
    using Caller = MapCaller;
    static constexpr const char *name = "map", *title = "map under a lock";
    static bool plays(const Workload &) { return true; }

    explicit MapStore(std::size_t) {}

    MapCaller caller() { return MapCaller(shared_); }

private:
    LockedMap shared_;
};

} // namespace

std::unique_ptr<Entrant> make_locked_map() { return std::make_unique<EntrantOf<MapStore>>(); }

} // namespace bench
