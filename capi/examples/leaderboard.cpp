// A leaderboard: four threads score for players, and the best three are read while they do.
//
//     c++ -std=c++17 leaderboard.cpp $(pkg-config --cflags --libs clsm) -pthread -o leaderboard && ./leaderboard
//
// A player's score stands at the player's number. Scans go by rising key, so there is a second row
// for each player, at a key that is the smaller the greater the score is: the ranking.
#include <clsm.hpp>

#include <atomic>
#include <iostream>
#include <thread>
#include <vector>

namespace {

constexpr std::uint64_t players = 100, threads = 4, best = 3;
constexpr int rounds = 50;
constexpr std::uint64_t all = players; // at this key stands the sum of all scores
constexpr std::uint64_t ranking = std::uint64_t(1) << 63, most = (std::uint64_t(1) << 31) - 1;

std::uint64_t place_of(const clsm::value &score, std::uint64_t player) {
    return ranking | (most - score.front()) << 32 | player;
}

std::uint64_t player_of(const clsm::row &row) { return row.key & UINT32_MAX; }

// Adds to a score, and moves the player up in the ranking by a batch: no read finds the player
// twice there, or not at all.
void win(clsm::caller &caller, std::uint64_t player, std::uint64_t points) {
    const clsm::change score = caller.add(player, points);
    clsm::batch move;
    move.put(place_of(*score.after, player), *score.after);
    if (score.before) move.remove(place_of(*score.before, player));
    caller.write(move);
    caller.add(all, points);
}

// A thread has every fourth player. In each round a player wins its number of points, plus one.
void play(const clsm::store &store, std::uint64_t own) {
    clsm::caller caller = store.caller();
    for (int round = 0; round < rounds; round++)
        for (std::uint64_t player = own; player < players; player += threads) win(caller, player, player + 1);
}

// The first players of the ranking at one moment.
std::vector<clsm::row> best_of(const clsm::caller &caller) { return caller.page(ranking, UINT64_MAX, best).rows; }

} // namespace

int main() {
    try {
        const clsm::store store;
        std::atomic<std::uint64_t> running(threads);
        std::vector<std::thread> playing;
        for (std::uint64_t own = 0; own < threads; own++)
            playing.emplace_back([&store, &running, own] {
                play(store, own);
                running--;
            });
        const clsm::caller caller = store.caller();
        while (running > 0) best_of(caller); // whoever they are by now
        for (std::thread &thread : playing) thread.join();
        for (const clsm::row &row : best_of(caller))
            std::cout << "player " << player_of(row) << ": " << row.value.front() << '\n';
        std::cout << "all: " << caller.get(all)->front() << '\n';
    } catch (const clsm::error &error) {
        std::cerr << "leaderboard: " << error.what() << '\n';
        return 1;
    }
}
