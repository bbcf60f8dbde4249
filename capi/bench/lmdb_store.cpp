// LMDB in /dev/shm, written through its map and never synced. Each write is a transaction; a caller keeps
// its read transaction and cursor, and renews them.
#include "player.h"

#if __has_include(<lmdb.h>)

#include <cstdlib>
#include <filesystem>
#include <lmdb.h>

namespace bench {

namespace {

void check(int code) {
    if (code != MDB_SUCCESS) throw Failure(std::string("lmdb: ") + mdb_strerror(code));
}

struct Close {
    void operator()(MDB_env *env) const { mdb_env_close(env); }
    void operator()(MDB_txn *transaction) const { mdb_txn_abort(transaction); }
    void operator()(MDB_cursor *cursor) const { mdb_cursor_close(cursor); }
};

template <typename Handle> using Owned = std::unique_ptr<Handle, Close>;

MDB_val bytes_of(std::uint64_t &number) { return {sizeof number, &number}; }

std::uint64_t number_of(const MDB_val &bytes) {
    if (bytes.mv_size != sizeof(std::uint64_t)) throw Failure("lmdb: a word of another size");
    return *static_cast<const std::uint64_t *>(bytes.mv_data);
}

Owned<MDB_txn> begin(MDB_env *env, unsigned flags) {
    MDB_txn *transaction = nullptr;
    check(mdb_txn_begin(env, nullptr, flags, &transaction));
    return Owned<MDB_txn>(transaction);
}

void commit(Owned<MDB_txn> transaction) { check(mdb_txn_commit(transaction.release())); }

bool get_in(MDB_txn *transaction, MDB_dbi map, std::uint64_t key, std::uint64_t &word) {
    MDB_val asked = bytes_of(key), found = {};
    const int code = mdb_get(transaction, map, &asked, &found);
    if (code == MDB_NOTFOUND) return false;
    check(code);
    word = number_of(found);
    return true;
}

void put_in(MDB_txn *transaction, MDB_dbi map, std::uint64_t key, std::uint64_t word) {
    MDB_val at = bytes_of(key), value = bytes_of(word);
    check(mdb_put(transaction, map, &at, &value, 0));
}

class LmdbCaller {
public:
    LmdbCaller(MDB_env *env, MDB_dbi map) : env_(env), map_(map), reading_(begin(env, MDB_RDONLY)) {
        MDB_cursor *cursor = nullptr;
        check(mdb_cursor_open(reading_.get(), map, &cursor));
        cursor_.reset(cursor);
        mdb_txn_reset(reading_.get());
    }

    void put(std::uint64_t key, std::uint64_t word) {
        Owned<MDB_txn> writing = begin(env_, 0);
        put_in(writing.get(), map_, key, word);
        commit(std::move(writing));
    }

    bool get(std::uint64_t key, std::uint64_t &word) {
        const Read read(reading_.get());
        return get_in(reading_.get(), map_, key, word);
    }

    void remove(std::uint64_t key) {
        Owned<MDB_txn> writing = begin(env_, 0);
        MDB_val asked = bytes_of(key);
        const int code = mdb_del(writing.get(), map_, &asked, nullptr);
        if (code != MDB_NOTFOUND) check(code);
        commit(std::move(writing));
    }

    std::uint64_t add(std::uint64_t key, std::uint64_t by) {
        Owned<MDB_txn> writing = begin(env_, 0);
        std::uint64_t word = 0;
        get_in(writing.get(), map_, key, word);
        put_in(writing.get(), map_, key, word + by);
        commit(std::move(writing));
        return word;
    }

    template <class Visit> void get_many(const std::vector<std::uint64_t> &keys, Visit visit) {
        const Read read(reading_.get());
        for (const std::uint64_t key : keys) {
            std::uint64_t word = 0;
            const bool is_there = get_in(reading_.get(), map_, key, word);
            visit(key, is_there, word);
        }
    }

    std::pair<std::uint64_t, std::uint64_t> transfer(std::uint64_t from, std::uint64_t to, std::uint64_t by) {
        Owned<MDB_txn> writing = begin(env_, 0);
        std::uint64_t giver = 0, taker = 0;
        get_in(writing.get(), map_, from, giver);
        get_in(writing.get(), map_, to, taker);
        put_in(writing.get(), map_, from, giver - by);
        put_in(writing.get(), map_, to, taker + by);
        commit(std::move(writing));
        return {giver, taker};
    }

    template <class Visit> std::size_t scan(std::uint64_t first, std::size_t room, Visit visit) {
        const Read read(reading_.get());
        check(mdb_cursor_renew(reading_.get(), cursor_.get()));
        MDB_val key = bytes_of(first), word = {};
        std::size_t rows = 0;
        int code = mdb_cursor_get(cursor_.get(), &key, &word, MDB_SET_RANGE);
        while (code == MDB_SUCCESS) {
            visit(number_of(key), number_of(word));
            if (++rows == room) return rows;
            code = mdb_cursor_get(cursor_.get(), &key, &word, MDB_NEXT);
        }
        if (code != MDB_NOTFOUND) check(code);
        return rows;
    }

    template <class Visit> std::size_t scan_down(std::uint64_t last, std::size_t room, Visit visit) {
        const Read read(reading_.get());
        check(mdb_cursor_renew(reading_.get(), cursor_.get()));
        MDB_val key = bytes_of(last), word = {};
        std::size_t rows = 0;
        int code = mdb_cursor_get(cursor_.get(), &key, &word, MDB_SET_RANGE);
        if (code == MDB_NOTFOUND) code = mdb_cursor_get(cursor_.get(), &key, &word, MDB_LAST);
        else if (code == MDB_SUCCESS && number_of(key) > last)
            code = mdb_cursor_get(cursor_.get(), &key, &word, MDB_PREV);
        while (code == MDB_SUCCESS) {
            visit(number_of(key), number_of(word));
            if (++rows == room) return rows;
            code = mdb_cursor_get(cursor_.get(), &key, &word, MDB_PREV);
        }
        if (code != MDB_NOTFOUND) check(code);
        return rows;
    }

private:
    // A read of the present, in this transaction.
    class Read {
    public:
        explicit Read(MDB_txn *transaction) : transaction_(transaction) { check(mdb_txn_renew(transaction)); }
        ~Read() { mdb_txn_reset(transaction_); }
        Read(const Read &) = delete;
        Read &operator=(const Read &) = delete;

    private:
        MDB_txn *transaction_;
    };

    MDB_env *env_;
    MDB_dbi map_;
    Owned<MDB_txn> reading_;
    Owned<MDB_cursor> cursor_;
};

// A folder of its own in /dev/shm.
class Folder {
public:
    // The file is to grow to so many bytes: where the system had less, writing it would end the program.
    explicit Folder(std::size_t bytes) {
        if (std::filesystem::space("/dev/shm").available < bytes) throw Failure("lmdb: too little room in /dev/shm");
        std::string path = "/dev/shm/clsm-bench-" + std::string(6, 'X');
        if (!mkdtemp(path.data())) throw Failure("lmdb: no folder in /dev/shm");
        path_ = path;
    }
    ~Folder() {
        std::error_code ignored;
        std::filesystem::remove_all(path_, ignored);
    }
    Folder(const Folder &) = delete;
    Folder &operator=(const Folder &) = delete;

    const char *path() const { return path_.c_str(); }

private:
    std::string path_;
};

class LmdbStore {
public:
    using Caller = LmdbCaller;
    static constexpr const char *name = "lmdb", *title = "LMDB";
    static bool plays(const Workload &) { return true; }

    explicit LmdbStore(std::size_t keys) {
        // While a reader stands still, no page that it may see is used again, and the file grows.
        const std::size_t room = keys * 512 + (std::size_t{64} << 20);
        // Open files live on without their folder, and end with the program, however it ends.
        const Folder folder(room);
        MDB_env *env = nullptr;
        check(mdb_env_create(&env));
        env_.reset(env);
        check(mdb_env_set_mapsize(env, room));
        check(mdb_env_open(env, folder.path(), MDB_WRITEMAP | MDB_NOSYNC | MDB_NOTLS, 0600));
        Owned<MDB_txn> writing = begin(env, 0);
        check(mdb_dbi_open(writing.get(), nullptr, MDB_INTEGERKEY | MDB_CREATE, &map_));
        commit(std::move(writing));
    }

    LmdbCaller caller() { return {env_.get(), map_}; }

private:
    Owned<MDB_env> env_;
    MDB_dbi map_ = 0;
};

} // namespace

std::unique_ptr<Entrant> make_lmdb() { return std::make_unique<EntrantOf<LmdbStore>>(); }

} // namespace bench

#else

namespace bench {

std::unique_ptr<Entrant> make_lmdb() { return nullptr; }

} // namespace bench

#endif
