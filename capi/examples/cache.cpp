// A cache that four threads fill while snapshots of it are read: each snapshot shows the cache as
// it was at one moment, however often it is read.
//
//     c++ -std=c++17 cache.cpp $(pkg-config --cflags --libs clsm) -pthread -o cache && ./cache
#include <clsm.hpp>

#include <algorithm>
#include <atomic>
#include <cstdlib>
#include <iostream>
#include <thread>
#include <vector>

namespace {

constexpr std::uint64_t numbers = 1000;
constexpr int threads = 4;

// What is costly to compute: in how many steps a number comes to 1, and how high it climbs.
clsm::value path_of(std::uint64_t number) {
    std::uint64_t steps = 0, highest = number;
    for (; number > 1; steps++) {
        number = number % 2 == 1 ? 3 * number + 1 : number / 2;
        highest = std::max(highest, number);
    }
    return {steps, highest};
}

// The path of a number: from the cache, or computed and kept. If another thread kept it first, the
// path is the same.
clsm::value cached(clsm::caller &caller, std::uint64_t number) {
    if (const auto path = caller.get(number)) return *path;
    return *caller.put_if_absent(number, path_of(number)).after;
}

// Reads a snapshot. It has as many rows as it says, and each of them is right.
void look(const clsm::snapshot &snapshot) {
    std::uint64_t seen = 0;
    for (const auto &[number, path] : snapshot.range()) {
        if (path != path_of(number)) std::abort();
        seen++;
    }
    if (seen != snapshot.count()) std::abort();
}

} // namespace

int main() {
    try {
        const clsm::store store(clsm::options().with_keys(10000));
        std::atomic<int> running(threads);
        std::vector<std::thread> filling;
        for (int i = 0; i < threads; i++)
            filling.emplace_back([&store, &running] {
                clsm::caller caller = store.caller();
                for (std::uint64_t number = 1; number <= numbers; number++) cached(caller, number);
                running--;
            });
        clsm::caller caller = store.caller();
        while (running > 0) look(caller.snapshot());
        for (std::thread &thread : filling) thread.join();
        look(caller.snapshot());
        const clsm::value path = cached(caller, 27);
        std::cout << caller.count() << " numbers\n";
        std::cout << "27 takes " << path[0] << " steps and climbs to " << path[1] << '\n';
    } catch (const clsm::error &error) {
        std::cerr << "cache: " << error.what() << '\n';
        return 1;
    }
}
