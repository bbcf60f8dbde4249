// The part of clsm.hpp that reads rows one after another: iterators, scans, walks and snapshots.
#ifndef CLSM_READING_HPP
#define CLSM_READING_HPP

#include "clsm_values.hpp"

#include <algorithm>
#include <array>
#include <cstddef>
#include <cstdint>
#include <iterator>
#include <optional>
#include <utility>
#include <vector>

namespace clsm {

// ---- Rows one after another

namespace detail {

constexpr std::uint64_t greatest_key = UINT64_MAX;

inline row row_of(const clsm_row &raw) { return {raw.key, *value::from(raw.value)}; }

// The row that a call of clsm.h finds, if it finds one.
template <class Call> std::optional<row> find_row(Call call) {
    clsm_row raw;
    const int code = call(&raw);
    thrower()(code);
    return code == CLSM_OK ? std::optional<row>(row_of(raw)) : std::nullopt;
}

// The values that a call of clsm.h reads.
template <class Call>
std::vector<std::optional<value>> read_many(const std::vector<std::uint64_t> &keys, Call call) {
    std::vector<clsm_value> raw(keys.size());
    thrower()(call(keys.data(), keys.size(), raw.data()));
    std::vector<std::optional<value>> values(keys.size());
    std::transform(raw.begin(), raw.end(), values.begin(), value::from);
    return values;
}

// An iterator over what a source reads: `bool read(clsm_row &)` is false behind the last row.
template <class Source> class iterator {
public:
    using iterator_category = std::input_iterator_tag;
    using value_type = row;
    using difference_type = std::ptrdiff_t;
    using pointer = const row *;
    using reference = const row &;

    iterator() = default;
    explicit iterator(Source &source) : source_(&source) { read(); }

    const row &operator*() const noexcept { return *row_; }
    const row *operator->() const noexcept { return &*row_; }
    iterator &operator++() {
        read();
        return *this;
    }
    // It keeps its row; what it reads next is what comes next.
    iterator operator++(int) {
        iterator before = *this;
        read();
        return before;
    }

    // All that have come to the end are equal.
    friend bool operator==(const iterator &one, const iterator &other) noexcept {
        return one.source_ == other.source_;
    }
    friend bool operator!=(const iterator &one, const iterator &other) noexcept { return !(one == other); }

private:
    void read() {
        clsm_row raw;
        if (source_->read(raw)) row_ = row_of(raw);
        else source_ = nullptr;
    }

    Source *source_ = nullptr;
    std::optional<row> row_ = std::nullopt;
};

// Reads the page at the handle by a call of clsm.h: from one end of the range to the other.
template <class Call, class Done>
page read_page(Call call, std::uint64_t from, std::uint64_t to, std::size_t most, Done done) {
    constexpr std::size_t at_once = 512;
    page page;
    std::vector<clsm_row> rows(std::min(most, at_once));
    clsm_page_end end = {0, from, true};
    int code = CLSM_OK;
    // One call is of one moment, so there is room for all rows in the last.
    for (;;) {
        code = call(from, to, rows.data(), rows.size(), &end);
        if (code != CLSM_OK || !end.more || rows.size() == most) break;
        rows.resize(most / 4 < rows.size() ? most : 4 * rows.size());
    }
    done(code);
    if (code != CLSM_OK) return page;
    page.rows.reserve(end.rows);
    for (std::uint64_t i = 0; i < end.rows; i++) page.rows.push_back(row_of(rows[i]));
    if (end.more) page.next = end.next;
    return page;
}

} // namespace detail

// The rows of a range as they were at one moment: an open snapshot, which keeps old versions. It is
// read once, from its first row on; a snapshot gives it again. Throws error if memory runs out.
class scan {
public:
    using iterator = detail::iterator<scan>;
    iterator begin() { return iterator(*this); }
    iterator end() { return iterator(); }

    explicit operator bool() const noexcept { return handle_.own != nullptr; }

    // The next row, if there is one.
    bool read(clsm_row &row) {
        const int code = clsm_scan_next(handle_.own.get(), &row);
        detail::thrower()(code);
        return code == CLSM_OK;
    }

private:
    friend class caller;
    explicit scan(detail::handle<clsm_scan> handle) : handle_(std::move(handle)) {}
    detail::handle<clsm_scan> handle_;
};

// The rows of a range, page by page, each page of its own moment: for loops that write as they
// read. It is no snapshot. Its caller lives longer. Throws error if memory runs out.
class walk {
public:
    using iterator = detail::iterator<walk>;
    iterator begin() { return iterator(*this); }
    iterator end() { return iterator(); }

    explicit operator bool() const noexcept { return own_ != nullptr; }

    bool read(clsm_row &row) {
        const int code = clsm_walk_next(own_.get(), &row);
        detail::thrower()(code);
        return code == CLSM_OK;
    }

private:
    friend class caller;
    explicit walk(detail::owned<clsm_walk> own) : own_(std::move(own)) {}
    detail::owned<clsm_walk> own_;
};

// ---- Snapshots

// The map as it was when the snapshot was opened.
class snapshot {
public:
    std::optional<value> get(std::uint64_t key) const {
        clsm_value found;
        detail::thrower()(clsm_snapshot_get(raw(), key, &found));
        return value::from(found);
    }
    bool contains(std::uint64_t key) const { return get(key).has_value(); }
    // The values of the keys, each at the place of its key.
    std::vector<std::optional<value>> get_many(const std::vector<std::uint64_t> &keys) const {
        return detail::read_many(
            keys, [this](auto... arguments) { return clsm_snapshot_get_many(raw(), arguments...); });
    }
    // The rows of the least and of the greatest key from first to last that have a value.
    std::optional<row> first(std::uint64_t first = 0, std::uint64_t last = detail::greatest_key) const {
        return detail::find_row([&](clsm_row *row) { return clsm_snapshot_first(raw(), first, last, row); });
    }
    std::optional<row> last(std::uint64_t first = 0, std::uint64_t last = detail::greatest_key) const {
        return detail::find_row([&](clsm_row *row) { return clsm_snapshot_last(raw(), first, last, row); });
    }
    // The keys from first to last, both included, that have a value: visits each of them.
    std::uint64_t count(std::uint64_t first = 0, std::uint64_t last = detail::greatest_key) const {
        std::uint64_t keys = 0;
        detail::thrower()(clsm_snapshot_count(raw(), first, last, &keys));
        return keys;
    }
    clsm::page page(std::uint64_t first, std::uint64_t last, std::size_t most) const {
        return page_with(first, last, most, detail::thrower());
    }
    clsm::page page(std::uint64_t first, std::uint64_t last, std::size_t most, std::error_code &code) const {
        return page_with(first, last, most, detail::setter{code});
    }
    // By falling key: the next page begins at `next` downwards.
    clsm::page page_down(std::uint64_t last, std::uint64_t first, std::size_t most) const {
        const auto call = [this](auto... arguments) { return clsm_snapshot_page_down(raw(), arguments...); };
        return detail::read_page(call, last, first, most, detail::thrower());
    }

    // The rows from first to last, both included, or by falling key; the snapshot lives longer. Reads
    // 64 at a time, and throws error if memory runs out.
    class rows {
    public:
        using iterator = detail::iterator<rows>;
        iterator begin() { return iterator(*this); }
        iterator end() { return iterator(); }

        bool read(clsm_row &row) {
            while (at_ == end_.rows) {
                if (!end_.more) return false;
                detail::thrower()(page_(snapshot_, end_.next, end_of_range_, read_.data(), read_.size(), &end_));
                at_ = 0;
            }
            row = read_[at_++];
            return true;
        }

    private:
        friend class snapshot;
        using paging = int(clsm_snapshot *, std::uint64_t, std::uint64_t, clsm_row *, std::size_t, clsm_page_end *);
        rows(clsm_snapshot *of, paging *page, std::uint64_t from, std::uint64_t to)
            : snapshot_(of), page_(page), end_of_range_(to), end_{0, from, true} {}
        clsm_snapshot *snapshot_;
        paging *page_;
        std::uint64_t end_of_range_;
        clsm_page_end end_;
        std::size_t at_ = 0;
        std::array<clsm_row, 64> read_ = {};
    };

    rows range(std::uint64_t first = 0, std::uint64_t last = detail::greatest_key) const & {
        return {raw(), clsm_snapshot_page, first, last};
    }
    rows range_down(std::uint64_t last = detail::greatest_key, std::uint64_t first = 0) const & {
        return {raw(), clsm_snapshot_page_down, last, first};
    }
    // One that is a temporary would be closed before the first row: give it a name.
    rows range(std::uint64_t first = 0, std::uint64_t last = detail::greatest_key) const && = delete;
    rows range_down(std::uint64_t last = detail::greatest_key, std::uint64_t first = 0) const && = delete;

    // The time at which it reads.
    std::uint64_t time() const noexcept { return clsm_snapshot_time(raw()); }
    unsigned number() const noexcept { return clsm_snapshot_number(raw()); }
    explicit operator bool() const noexcept { return handle_.own != nullptr; }
    // For calls of clsm.h.
    clsm_snapshot *raw() const noexcept { return handle_.own.get(); }

private:
    friend class caller;
    friend class store;
    explicit snapshot(detail::handle<clsm_snapshot> handle) : handle_(std::move(handle)) {}

    template <class Done>
    clsm::page page_with(std::uint64_t first, std::uint64_t last, std::size_t most, Done done) const {
        const auto call = [this](auto... arguments) { return clsm_snapshot_page(raw(), arguments...); };
        return detail::read_page(call, first, last, most, done);
    }

    detail::handle<clsm_snapshot> handle_;
};

} // namespace clsm

#endif
