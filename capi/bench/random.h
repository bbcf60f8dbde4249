// Numbers that look drawn, the same from a seed everywhere.
#ifndef CLSM_BENCH_RANDOM_H
#define CLSM_BENCH_RANDOM_H

#include <cmath>
#include <cstdint>

namespace bench {

// SplitMix64's scattering of 64 bits: different numbers stay different.
inline std::uint64_t mix(std::uint64_t x) {
    x = (x ^ (x >> 30)) * 0xbf58476d1ce4e5b9u;
    x = (x ^ (x >> 27)) * 0x94d049bb133111ebu;
    return x ^ (x >> 31);
}

class Random {
public:
    explicit Random(std::uint64_t seed) : state_(mix(seed)) {}

    std::uint64_t next() { return mix(state_ += 0x9e3779b97f4a7c15u); }

    // From 0 to limit - 1; the limit is far below 2^64.
    std::uint64_t below(std::uint64_t limit) { return next() % limit; }

    // From 0 on, and below 1.
    double fraction() { return static_cast<double>(next() >> 11) * 0x1p-53; }

private:
    std::uint64_t state_;
};

// Zipf's law with the exponent 0.99 on the ranks 0 to items - 1, as YCSB draws it: after Gray and others,
// "Quickly Generating Billion-Record Synthetic Databases", SIGMOD 1994.
class Zipf {
public:
    explicit Zipf(std::uint64_t items)
        : items_(static_cast<double>(items)), zeta_(zeta(items)),
          eta_((1 - std::pow(2 / items_, 1 - theta)) / (1 - zeta(2) / zeta_)) {}

    std::uint64_t rank(Random &random) const {
        const double u = random.fraction();
        if (u * zeta_ < 1) return 0;
        if (u * zeta_ < zeta(2)) return 1;
        return static_cast<std::uint64_t>(items_ * std::pow(eta_ * u - eta_ + 1, 1 / (1 - theta)));
    }

private:
    static constexpr double theta = 0.99;

    static double zeta(std::uint64_t items) {
        double sum = 0;
        for (std::uint64_t i = 1; i <= items; i++) sum += 1 / std::pow(static_cast<double>(i), theta);
        return sum;
    }

    double items_, zeta_, eta_;
};

} // namespace bench

#endif
