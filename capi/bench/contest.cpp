#include "contest.h"

#include <chrono>
#include <ctime>
#include <thread>
#include <utility>

namespace bench {

namespace {

// What all stores must have alike.
class Agreement {
public:
    explicit Agreement(std::string what) : what_(std::move(what)) {}

    void check(const Entrant &entrant, std::uint64_t sum) {
        if (!first_) {
            first_ = &entrant;
            sum_ = sum;
        } else if (sum != sum_) {
            throw Failure(what_ + " of " + first_->name() + " and " + entrant.name() + " differ");
        }
    }

private:
    std::string what_;
    const Entrant *first_ = nullptr;
    std::uint64_t sum_ = 0;
};

// Waits until no thread of this process works, as those that merge and compact do; at most 10 seconds.
void wait_for_rest() {
    constexpr auto look = std::chrono::milliseconds(2);
    int at_rest = 0;
    for (int looks = 0; looks < 5000 && at_rest < 3; looks++) {
        const std::clock_t before = std::clock();
        std::this_thread::sleep_for(look);
        const double worked = static_cast<double>(std::clock() - before) / CLOCKS_PER_SEC;
        at_rest = worked < 0.0002 ? at_rest + 1 : 0;
    }
}

std::string line_of(const Round &round) {
    return std::string(round.workload->name) + ", threads " + std::to_string(round.steps.size()) + ": ";
}

// Whether the seed determines the answers, at least the upper halves of their words.
bool determines_answers(const Round &round) {
    return round.steps.size() == 1 || !round.workload->has(Act::insert);
}

} // namespace

Contest::Contest(const Workload &workload, const Options &options, const Zipf &ranks, const Entrants &entrants)
    : workload_(workload), options_(options), ranks_(ranks), entrants_(entrants) {
    if (workload.is_loaded) load_ = draw_load(workload, options.keys);
}

void Contest::play(Report &report) {
    for (const auto &entrant : entrants_)
        if (workload_.is_loaded && entrant->plays(workload_)) open(*entrant);
    for (const std::uint64_t threads : options_.threads) report.print(play_line(threads));
    for (const auto &entrant : entrants_) entrant->close();
}

Line Contest::play_line(std::uint64_t threads) {
    Line line = {workload_.name, threads, {}, {}};
    line.cells.resize(entrants_.size());
    line.answers.resize(entrants_.size());
    for (std::uint64_t turn = 0; turn < options_.repeat; turn++) {
        Round round = draw(threads, turn);
        note_writers(round);
        const bool changes_words = workload_.has(Act::put) || workload_.has(Act::add) || workload_.has(Act::transfer);
        round.mask = is_exact_ && (threads == 1 || !changes_words) ? words : tags;
        play_round(round, turn, line);
        note_inserts(round);
    }
    return line;
}

// Each store plays the round once. All rows are compared at the end of a line.
void Contest::play_round(const Round &round, std::uint64_t turn, Line &line) {
    Agreement answers(line_of(round) + "the answers"), rows(line_of(round) + "the rows");
    for (std::size_t i = 0; i < entrants_.size(); i++) {
        const std::size_t place = (i + turn) % entrants_.size();
        Entrant &entrant = *entrants_[place];
        if (!entrant.plays(workload_)) continue;
        if (!workload_.is_loaded) open(entrant);
        wait_for_rest();
        const Outcome outcome = entrant.play(round);
        line.cells[place].add(outcome.nanoseconds / static_cast<double>(outcome.calls));
        if (determines_answers(round)) {
            answers.check(entrant, outcome.answers);
            line.answers[place] = line.answers[place].value_or(0) + outcome.answers;
        }
        if (turn + 1 == options_.repeat) {
            rows.check(entrant, entrant.rows(is_exact_ ? words : tags));
            check_sum(round, entrant);
        }
        if (workload_.is_loaded) entrant.put_back(round);
        else entrant.close();
    }
}

// Transfers keep the sum of the words.
void Contest::check_sum(const Round &round, Entrant &entrant) const {
    if (!workload_.has(Act::transfer)) return;
    std::uint64_t loaded = 0;
    for (const Step &step : load_) loaded += step.word;
    if (entrant.sum() != loaded) throw Failure(line_of(round) + "the accounts of " + entrant.name() + " lost their sum");
}

// With room for all keys that the rounds may insert, as one call in 20 does.
void Contest::open(Entrant &entrant) const {
    const std::uint64_t rounds = options_.threads.size() * options_.repeat;
    const std::uint64_t inserts = rounds * (options_.operations / 16 + 1000);
    entrant.open(options_.keys + (workload_.has(Act::insert) ? inserts : 0));
    entrant.load(load_);
}

// Where several threads put at one key, the last one is by chance.
void Contest::note_writers(const Round &round) {
    const bool are_rivals = workload_.beside == Beside::writer || (workload_.has(Act::put) && round.steps.size() > 1);
    is_exact_ = !are_rivals && (is_exact_ || !workload_.is_loaded);
}

void Contest::note_inserts(const Round &round) {
    for (const std::vector<Step> &steps : round.steps)
        for (const Step &step : steps) inserted_ += step.act == Act::insert ? 1 : 0;
}

Round Contest::draw(std::uint64_t threads, std::uint64_t turn) const {
    const std::uint64_t seed = mix(mix(threads) + turn);
    Round round = {&workload_, options_.keys + inserted_, {}, {}, words};
    for (std::uint64_t thread = 0; thread < threads; thread++) {
        const std::size_t calls = options_.operations * (thread + 1) / threads - options_.operations * thread / threads;
        round.steps.push_back(draw_steps(workload_, ranks_, options_.keys, {thread, threads, seed, calls}));
    }
    if (workload_.beside == Beside::writer) round.beside = draw_beside(workload_.layout, options_.keys, seed);
    return round;
}

} // namespace bench
