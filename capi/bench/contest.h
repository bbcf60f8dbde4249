// A workload, played by all stores in turn.
#ifndef CLSM_BENCH_CONTEST_H
#define CLSM_BENCH_CONTEST_H

#include "entrant.h"
#include "options.h"
#include "report.h"

namespace bench {

using Entrants = std::vector<std::unique_ptr<Entrant>>;

class Contest {
public:
    // All of them outlive the contest.
    Contest(const Workload &, const Options &, const Zipf &ranks, const Entrants &);

    // Prints a line for each number of threads. Throws a Failure if answers or rows differ.
    void play(Report &);

private:
    Line play_line(std::uint64_t threads);
    void play_round(const Round &, std::uint64_t turn, Line &);
    void check_sum(const Round &, Entrant &) const;
    void open(Entrant &) const;
    void note_writers(const Round &);
    void note_inserts(const Round &);
    Round draw(std::uint64_t threads, std::uint64_t turn) const;

    const Workload &workload_;
    const Options &options_;
    const Zipf &ranks_;
    const Entrants &entrants_;
    std::vector<Step> load_;
    std::uint64_t inserted_ = 0; // keys, by the rounds so far
    bool is_exact_ = true;       // the seed determines whole words, not the upper halves alone
};

} // namespace bench

#endif
