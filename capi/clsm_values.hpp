// The part of clsm.hpp that has errors, values, batches and conditions.
#ifndef CLSM_VALUES_HPP
#define CLSM_VALUES_HPP

#include "clsm.h"

#include <algorithm>
#include <array>
#include <cstddef>
#include <cstdint>
#include <functional>
#include <initializer_list>
#include <memory>
#include <new>
#include <optional>
#include <stdexcept>
#include <string>
#include <system_error>
#include <type_traits>
#include <utility>
#include <vector>

namespace clsm {

// ---- Errors

// The codes of clsm.h as a category of the standard library. It stays until the program has ended.
inline const std::error_category &category() noexcept {
    class codes final : public std::error_category {
        const char *name() const noexcept override { return "clsm"; }
        std::string message(int code) const override { return clsm_strerror(code); }
        std::error_condition default_error_condition(int code) const noexcept override {
            switch (code) {
            case CLSM_MEMORY: return std::errc::not_enough_memory;
            case CLSM_BUSY: return std::errc::device_or_resource_busy;
            case CLSM_FULL:
            case CLSM_RACED:
            case CLSM_OVERTAKEN:
            case CLSM_PINNED:
            case CLSM_CONFLICT:
            case CLSM_NO_THREAD: return std::errc::resource_unavailable_try_again;
            case CLSM_BAD_KEYS:
            case CLSM_BAD_EPOCH:
            case CLSM_BAD_PATIENCE:
            case CLSM_BAD_VALUE:
            case CLSM_BAD_BATCH:
            case CLSM_BAD_POINTER:
            case CLSM_BAD_MERGE:
            case CLSM_EMPTY_BATCH:
            case CLSM_BAD_VERSIONS:
            case CLSM_BAD_WAIT: return std::errc::invalid_argument;
            default: return std::error_condition(code, *this);
            }
        }
    };
    alignas(codes) static unsigned char place[sizeof(codes)];
    static const codes &all = *::new (static_cast<void *>(place)) codes;
    return all;
}

} // namespace clsm

// So a code is an error_code, and one may be compared with it: `if (code == CLSM_RUN_FULL)`.
template <> struct std::is_error_code_enum<clsm_code> : std::true_type {};
inline std::error_code make_error_code(clsm_code code) noexcept { return {code, clsm::category()}; }

namespace clsm {

// What a refused call throws.
class error : public std::system_error {
public:
    explicit error(clsm_code code) : std::system_error(code, category()), code_(code) {}
    // The code of clsm.h, such as CLSM_RUN_FULL.
    clsm_code why() const noexcept { return code_; }

private:
    clsm_code code_;
};

namespace detail {

// Where a call leaves its code: thrown, or in an error_code.
struct thrower {
    void operator()(int code) const {
        if (code >= CLSM_FULL) throw error(static_cast<clsm_code>(code));
    }
};

struct setter {
    std::error_code &at;
    void operator()(int code) const noexcept {
        if (code >= CLSM_FULL) at.assign(code, category());
        else at.clear();
    }
};

struct closer {
    void operator()(clsm_store *store) const noexcept { clsm_close(store); }
    void operator()(clsm_caller *caller) const noexcept { clsm_caller_close(caller); }
    void operator()(clsm_snapshot *snapshot) const noexcept { clsm_snapshot_close(snapshot); }
    void operator()(clsm_scan *scan) const noexcept { clsm_scan_close(scan); }
    void operator()(clsm_walk *walk) const noexcept { clsm_walk_close(walk); }
    void operator()(clsm_transaction *transaction) const noexcept { clsm_transaction_close(transaction); }
};

template <class Handle> using owned = std::unique_ptr<Handle, closer>;

// What a call of clsm.h opens, or null if it is refused.
template <class Handle, class Call, class Done> Handle *open(Call call, Done done) {
    Handle *opened = nullptr;
    done(call(&opened));
    return opened;
}

// A handle, and the store, which is closed behind it.
template <class Handle> struct handle {
    std::shared_ptr<clsm_store> store;
    owned<Handle> own;

    handle(std::shared_ptr<clsm_store> of, Handle *opened) noexcept : store(std::move(of)), own(opened) {}
    handle(handle &&) noexcept = default;
    handle &operator=(handle &&other) noexcept {
        own = std::move(other.own);
        store = std::move(other.store);
        return *this;
    }
};

} // namespace detail

// ---- Values

// One to eight words of 64 bits.
class value {
public:
    using value_type = std::uint64_t;
    using const_iterator = const std::uint64_t *;
    using iterator = const_iterator;
    static constexpr std::size_t most_words = 8;

    // A value of one word.
    value(std::uint64_t word) noexcept : raw_{1, {word}} {} // NOLINT: as its word

    // Throws std::length_error unless there are one to eight words.
    value(std::initializer_list<std::uint64_t> words) : value(words.begin(), words.size()) {}
    value(const std::uint64_t *words, std::size_t count) : raw_{} {
        if (count < 1 || count > most_words) throw std::length_error("a value has 1 to 8 words");
        std::copy_n(words, count, raw_.words);
        raw_.length = count;
    }
    template <std::size_t count>
    value(const std::array<std::uint64_t, count> &words) noexcept : raw_{} { // NOLINT: as its words
        static_assert(count >= 1 && count <= most_words, "a value has 1 to 8 words");
        std::copy_n(words.data(), count, raw_.words);
        raw_.length = count;
    }

    std::size_t size() const noexcept { return static_cast<std::size_t>(raw_.length); }
    const std::uint64_t *data() const noexcept { return raw_.words; }
    const_iterator begin() const noexcept { return raw_.words; }
    const_iterator end() const noexcept { return raw_.words + raw_.length; }
    // The word at this place, which is below size().
    std::uint64_t operator[](std::size_t at) const noexcept { return raw_.words[at]; }
    std::uint64_t front() const noexcept { return raw_.words[0]; }

    friend bool operator==(const value &one, const value &other) noexcept {
        return std::equal(one.begin(), one.end(), other.begin(), other.end());
    }
    friend bool operator!=(const value &one, const value &other) noexcept { return !(one == other); }
    // By their first words that differ; one that another one begins with is below that.
    friend bool operator<(const value &one, const value &other) noexcept {
        return std::lexicographical_compare(one.begin(), one.end(), other.begin(), other.end());
    }
    friend bool operator>(const value &one, const value &other) noexcept { return other < one; }
    friend bool operator<=(const value &one, const value &other) noexcept { return !(other < one); }
    friend bool operator>=(const value &one, const value &other) noexcept { return !(one < other); }

    // For calls of clsm.h.
    const clsm_value &raw() const noexcept { return raw_; }
    // A value that clsm.h answered, or none.
    static std::optional<value> from(const clsm_value &raw) noexcept {
        if (raw.length < 1 || raw.length > most_words) return std::nullopt;
        return value(raw);
    }

private:
    explicit value(const clsm_value &raw) noexcept : raw_(raw) {}
    clsm_value raw_;
};

} // namespace clsm

template <> struct std::hash<clsm::value> {
    std::size_t operator()(const clsm::value &value) const noexcept {
        std::size_t mixed = value.size();
        for (const std::uint64_t word : value) mixed = (mixed ^ std::size_t{word}) * 0x9E3779B97F4A7C15u ^ mixed >> 29;
        return mixed;
    }
};

namespace clsm {

// A key and its value.
struct row {
    std::uint64_t key;
    clsm::value value;

    friend bool operator==(const row &one, const row &other) noexcept {
        return one.key == other.key && one.value == other.value;
    }
    friend bool operator!=(const row &one, const row &other) noexcept { return !(one == other); }
};

// What a change of a key found, and what the key has after it.
struct change {
    bool is_written;
    std::optional<value> before, after;
};

// The first rows of a range, and the key of the one behind them, if there are more.
struct page {
    std::vector<row> rows = {};
    std::optional<std::uint64_t> next = std::nullopt;
};

// Writes that are made at one moment, in their order: of several of one key the last one wins.
class batch {
public:
    batch &put(std::uint64_t key, const value &value) {
        rows_.push_back({key, value.raw()});
        return *this;
    }
    batch &remove(std::uint64_t key) {
        rows_.push_back({key, {}});
        return *this;
    }
    std::size_t size() const noexcept { return rows_.size(); }
    bool empty() const noexcept { return rows_.empty(); }
    void clear() noexcept { rows_.clear(); }
    // For calls of clsm.h.
    const std::vector<clsm_row> &raw() const noexcept { return rows_; }

private:
    std::vector<clsm_row> rows_ = {};
};

// What a batch expects to find. Values are compared, not when they were written.
class conditions {
public:
    // The key has this value; it has none; it still has what a get answered.
    conditions &has(std::uint64_t key, const value &value) {
        rows_.push_back({key, value.raw()});
        return *this;
    }
    conditions &has_none(std::uint64_t key) {
        rows_.push_back({key, {}});
        return *this;
    }
    conditions &still(std::uint64_t key, const std::optional<value> &found) {
        return found ? has(key, *found) : has_none(key);
    }
    // So many keys from first to last, both included, have a value.
    conditions &count(std::uint64_t first, std::uint64_t last, std::uint64_t keys) {
        counts_.push_back({first, last, keys});
        return *this;
    }
    std::size_t size() const noexcept { return rows_.size() + counts_.size(); }
    bool empty() const noexcept { return size() == 0; }
    void clear() noexcept {
        rows_.clear();
        counts_.clear();
    }
    // For calls of clsm.h.
    const std::vector<clsm_row> &raw_rows() const noexcept { return rows_; }
    const std::vector<clsm_range_count> &raw_counts() const noexcept { return counts_; }

private:
    std::vector<clsm_row> rows_ = {};
    std::vector<clsm_range_count> counts_ = {};
};

} // namespace clsm

#endif
