// LevelDB in its memory environment: with its defaults, but for a Bloom filter, no compression, and a cache
// that holds all blocks. A read-modify-write is a get and a put under one of 256 locks, the key's; a
// transfer is two gets and a batch under two of them.
#include "player.h"

#if __has_include(<leveldb/helpers/memenv.h>)

#include <algorithm>
#include <array>
#include <leveldb/cache.h>
#include <leveldb/db.h>
#include <leveldb/env.h>
#include <leveldb/filter_policy.h>
#include <leveldb/helpers/memenv.h>
#include <leveldb/write_batch.h>
#include <mutex>

namespace bench {

namespace {

// Of big endian bytes, so that LevelDB's order is that of the numbers.
class Bytes {
public:
    explicit Bytes(std::uint64_t number) {
        for (std::size_t i = 8; i-- > 0; number >>= 8) bytes_[i] = static_cast<char>(number & 0xff);
    }

    leveldb::Slice slice() const { return {bytes_.data(), bytes_.size()}; }

private:
    std::array<char, 8> bytes_;
};

std::uint64_t number_of(const leveldb::Slice &bytes) {
    if (bytes.size() != 8) throw Failure("leveldb: a word of another size");
    std::uint64_t number = 0;
    for (std::size_t i = 0; i < 8; i++) number = number << 8 | static_cast<unsigned char>(bytes[i]);
    return number;
}

void check(const leveldb::Status &status) {
    if (!status.ok()) throw Failure("leveldb: " + status.ToString());
}

using Locks = std::array<std::mutex, 256>;

std::size_t lock_of(std::uint64_t key) { return mix(key) % std::tuple_size_v<Locks>; }

// The map as it is when this is made.
class Moment {
public:
    explicit Moment(leveldb::DB &db) : db_(&db) { options_.snapshot = db.GetSnapshot(); }
    ~Moment() { db_->ReleaseSnapshot(options_.snapshot); }
    Moment(const Moment &) = delete;
    Moment &operator=(const Moment &) = delete;

    const leveldb::ReadOptions &options() const { return options_; }

private:
    leveldb::DB *db_;
    leveldb::ReadOptions options_;
};

class LevelCaller {
public:
    LevelCaller(leveldb::DB &db, Locks &locks) : db_(&db), locks_(&locks) {}

    void put(std::uint64_t key, std::uint64_t word) {
        check(db_->Put(leveldb::WriteOptions(), Bytes(key).slice(), Bytes(word).slice()));
    }

    bool get(std::uint64_t key, std::uint64_t &word) { return get_by(leveldb::ReadOptions(), key, word); }

    template <class Visit> void get_many(const std::vector<std::uint64_t> &keys, Visit visit) {
        const Moment moment(*db_);
        for (const std::uint64_t key : keys) {
            std::uint64_t word = 0;
            const bool is_there = get_by(moment.options(), key, word);
            visit(key, is_there, word);
        }
    }

    void remove(std::uint64_t key) { check(db_->Delete(leveldb::WriteOptions(), Bytes(key).slice())); }

    std::uint64_t add(std::uint64_t key, std::uint64_t by) {
        const std::lock_guard lock((*locks_)[lock_of(key)]);
        std::uint64_t word = 0;
        get(key, word);
        put(key, word + by);
        return word;
    }

    template <class Visit> std::size_t scan(std::uint64_t first, std::size_t room, Visit visit) {
        const std::unique_ptr<leveldb::Iterator> at(db_->NewIterator(leveldb::ReadOptions()));
        std::size_t rows = 0;
        for (at->Seek(Bytes(first).slice()); rows < room && at->Valid(); rows++) {
            visit(number_of(at->key()), number_of(at->value()));
            if (rows + 1 < room) at->Next();
        }
        check(at->status());
        return rows;
    }

    template <class Visit> std::size_t scan_down(std::uint64_t last, std::size_t room, Visit visit) {
        const std::unique_ptr<leveldb::Iterator> at(db_->NewIterator(leveldb::ReadOptions()));
        at->Seek(Bytes(last).slice());
        if (!at->Valid()) at->SeekToLast();
        else if (number_of(at->key()) > last) at->Prev();
        std::size_t rows = 0;
        for (; rows < room && at->Valid(); rows++) {
            visit(number_of(at->key()), number_of(at->value()));
            if (rows + 1 < room) at->Prev();
        }
        check(at->status());
        return rows;
    }

    // Takes the locks in their order, and one once.
    std::pair<std::uint64_t, std::uint64_t> transfer(std::uint64_t from, std::uint64_t to, std::uint64_t by) {
        const auto [low, high] = std::minmax({lock_of(from), lock_of(to)});
        const std::lock_guard lock((*locks_)[low]);
        std::unique_lock<std::mutex> other;
        if (high != low) other = std::unique_lock((*locks_)[high]);
        std::uint64_t giver = 0, taker = 0;
        get(from, giver);
        get(to, taker);
        leveldb::WriteBatch batch;
        batch.Put(Bytes(from).slice(), Bytes(giver - by).slice());
        batch.Put(Bytes(to).slice(), Bytes(taker + by).slice());
        check(db_->Write(leveldb::WriteOptions(), &batch));
        return {giver, taker};
    }

private:
    bool get_by(const leveldb::ReadOptions &options, std::uint64_t key, std::uint64_t &word) {
        const leveldb::Status status = db_->Get(options, Bytes(key).slice(), &value_);
        if (status.IsNotFound()) return false;
        check(status);
        word = number_of(value_);
        return true;
    }

    leveldb::DB *db_;
    Locks *locks_;
    std::string value_;
};

class LevelStore {
public:
    using Caller = LevelCaller;
    static constexpr const char *name = "leveldb", *title = "LevelDB";
    static bool plays(const Workload &) { return true; }

    explicit LevelStore(std::size_t keys)
        : memory_(leveldb::NewMemEnv(leveldb::Env::Default())), filter_(leveldb::NewBloomFilterPolicy(10)),
          cache_(leveldb::NewLRUCache(keys * 256 + (std::size_t{64} << 20))) {
        leveldb::Options options;
        options.env = memory_.get();
        options.filter_policy = filter_.get();
        options.block_cache = cache_.get();
        options.compression = leveldb::kNoCompression;
        options.create_if_missing = true;
        leveldb::DB *db = nullptr;
        check(leveldb::DB::Open(options, "/bench", &db));
        db_.reset(db);
    }

    LevelCaller caller() { return {*db_, locks_}; }

private:
    std::unique_ptr<leveldb::Env> memory_;
    std::unique_ptr<const leveldb::FilterPolicy> filter_;
    std::unique_ptr<leveldb::Cache> cache_;
    std::unique_ptr<leveldb::DB> db_;
    Locks locks_;
};

} // namespace

std::unique_ptr<Entrant> make_leveldb() { return std::make_unique<EntrantOf<LevelStore>>(); }

} // namespace bench

#else

namespace bench {

std::unique_ptr<Entrant> make_leveldb() { return nullptr; }

} // namespace bench

#endif
