// A ledger: four threads take transfers from one stream, and each is made once, whoever takes it.
//
//     c++ -std=c++17 ledger.cpp $(pkg-config --cflags --libs clsm) -pthread -o ledger && ./ledger
//
// A transaction reads how far the stream has come, makes the next transfer, and notes that it is
// made: place and results change in one step. In the same step it moves both accounts in an index
// by balance, whose keys have the balance above the account.
#include <clsm.hpp>

#include <algorithm>
#include <iostream>
#include <thread>
#include <vector>

namespace {

constexpr std::uint64_t accounts = 8, each = 100, transfers = 1000;
constexpr int threads = 4;
constexpr std::uint64_t place = accounts; // at this key stands how many transfers were made
constexpr std::uint64_t index = std::uint64_t(1) << 63;

std::uint64_t index_of(std::uint64_t balance, std::uint64_t account) { return index | balance << 8 | account; }

std::uint64_t word(const std::optional<clsm::value> &value) { return value ? value->front() : 0; }

// Gives an account another balance, and its row of the index another place.
void set_balance(clsm::transaction &t, std::uint64_t account, std::uint64_t from, std::uint64_t to) {
    t.remove(index_of(from, account));
    t.put(index_of(to, account), account);
    t.put(account, to);
}

void transfer(clsm::transaction &t, std::uint64_t from, std::uint64_t to, std::uint64_t wanted) {
    const std::uint64_t old = word(t.get(from)), amount = std::min(wanted, old);
    if (from == to) return;
    const std::uint64_t other = word(t.get(to));
    set_balance(t, from, old, old - amount);
    set_balance(t, to, other, other + amount);
}

// Makes the next transfer of the stream: false if there is none.
bool make_next(clsm::transaction &t) {
    const std::uint64_t next = word(t.get(place));
    if (next == transfers) return false;
    transfer(t, next * 5 % accounts, (next * 7 + next / 8 * 5 + 1) % accounts, next * 7 % 23);
    t.put(place, next + 1);
    return true;
}

void work(const clsm::store &store) {
    clsm::caller caller = store.caller();
    while (caller.transact(make_next, 100000)) continue;
}

void report(const clsm::snapshot &snapshot) {
    std::uint64_t sum = 0;
    for (const auto &[account, balance] : snapshot.page(0, accounts - 1, accounts).rows) sum += balance.front();
    const auto poorest = snapshot.first(index), richest = snapshot.last(index);
    std::cout << word(snapshot.get(place)) << " transfers, each once\n"
              << accounts << " accounts have " << sum << "\n"
              << "poorest: " << poorest->value.front() << " with " << ((poorest->key & ~index) >> 8) << "\n"
              << "richest: " << richest->value.front() << " with " << ((richest->key & ~index) >> 8) << "\n";
}

} // namespace

int main() {
    const clsm::store store;
    clsm::caller caller = store.caller();
    for (std::uint64_t account = 0; account < accounts; account++)
        caller.write(clsm::batch().put(account, each).put(index_of(each, account), account));
    std::vector<std::thread> working;
    for (int i = 0; i < threads; i++) working.emplace_back([&store] { work(store); });
    for (std::thread &thread : working) thread.join();
    report(caller.snapshot());
}
