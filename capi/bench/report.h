// What was measured, as a table or as CSV.
#ifndef CLSM_BENCH_REPORT_H
#define CLSM_BENCH_REPORT_H

#include <cstdint>
#include <fstream>
#include <optional>
#include <ostream>
#include <string>
#include <vector>

namespace bench {

// What was measured in each run: the nanoseconds of a call, or a ratio of two such.
class Times {
public:
    void add(double measured) { runs_.push_back(measured); }
    bool is_empty() const { return runs_.empty(); }
    // Run by run, as many times the other one's, or so much more. Empty if the other one lacks a run.
    Times over(const Times &other) const;
    Times less(const Times &other) const;
    double median() const;
    double least() const;
    double greatest() const;

private:
    std::vector<double> runs_;
};

// As 1,234 (1,200-1,310), and below 10 with a decimal.
std::string text_of(const Times &);
// As +5.1 (from -2.0 to +8.3).
std::string text_of_rests(const Times &);

// One workload on so many threads: a cell of each store, empty if it does not play. Ratios are to the
// first store.
struct Line {
    std::string workload;
    std::uint64_t threads = 0;
    std::vector<Times> cells;
    std::vector<std::optional<std::uint64_t>> answers;
};

// Rows of CSV, in a file of this name, or nowhere if there is none. Throws a Failure if it cannot be written.
class Csv {
public:
    explicit Csv(const std::string &file);
    // A row of each store that has played.
    void print(const std::vector<std::string> &names, const Line &);

private:
    std::ofstream out_;
};

// Prints a table, line by line, as they are measured.
class Report {
public:
    // The names and titles of the stores.
    Report(std::ostream &out, Csv &csv, std::vector<std::string> names, const std::vector<std::string> &titles);
    void print(const Line &);

private:
    std::ostream &out_;
    Csv &csv_;
    std::vector<std::string> names_;
};

} // namespace bench

#endif
