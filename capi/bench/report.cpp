#include "report.h"
#include "entrant.h"

#include <algorithm>
#include <cmath>
#include <cstdio>
#include <utility>

namespace bench {

namespace {

std::string with_commas(long long number) {
    std::string text = std::to_string(number);
    for (std::size_t at = text.size(); at > 3; at -= 3) text.insert(at - 3, ",");
    return text;
}

std::string text_of(double nanoseconds) {
    if (nanoseconds >= 9.95) return with_commas(std::llround(nanoseconds));
    char text[16];
    std::snprintf(text, sizeof text, "%.1f", nanoseconds);
    return text;
}

long long picoseconds(double nanoseconds) { return std::llround(1000 * nanoseconds); }

std::string text_of_ratio(double ratio) {
    if (ratio >= 99.5) return with_commas(std::llround(ratio));
    char text[16];
    std::snprintf(text, sizeof text, ratio >= 9.95 ? "%.1f" : "%.2f", ratio);
    return text;
}

std::string text_of_ratios(const Times &ratios) {
    return text_of_ratio(ratios.median()) + " (" + text_of_ratio(ratios.least()) + "-"
           + text_of_ratio(ratios.greatest()) + ")";
}

// The cell of a store that is not the first one: its median, and how that compares run by run.
std::string compared(const Times &times, const Times &first) {
    const Times ratios = times.over(first);
    return ratios.is_empty() ? text_of(times) : text_of(times.median()) + ", " + text_of_ratios(ratios);
}

} // namespace

Times Times::over(const Times &other) const {
    Times ratios;
    if (runs_.size() != other.runs_.size()) return ratios;
    for (std::size_t i = 0; i < runs_.size(); i++) ratios.add(runs_[i] / other.runs_[i]);
    return ratios;
}

Times Times::less(const Times &other) const {
    Times rests;
    if (runs_.size() != other.runs_.size()) return rests;
    for (std::size_t i = 0; i < runs_.size(); i++) rests.add(runs_[i] - other.runs_[i]);
    return rests;
}

double Times::median() const {
    std::vector<double> runs = runs_;
    std::sort(runs.begin(), runs.end());
    const std::size_t half = runs.size() / 2;
    return runs.size() % 2 == 1 ? runs[half] : (runs[half - 1] + runs[half]) / 2;
}

double Times::least() const { return *std::min_element(runs_.begin(), runs_.end()); }

double Times::greatest() const { return *std::max_element(runs_.begin(), runs_.end()); }

std::string text_of(const Times &times) {
    if (times.is_empty()) return "-";
    return text_of(times.median()) + " (" + text_of(times.least()) + "-" + text_of(times.greatest()) + ")";
}

std::string text_of_rests(const Times &rests) {
    char text[80];
    std::snprintf(text, sizeof text, "%+.1f (from %+.1f to %+.1f)", rests.median(), rests.least(), rests.greatest());
    return text;
}

Csv::Csv(const std::string &file) {
    if (file.empty()) return;
    out_.open(file);
    if (!out_) throw Failure("--csv: " + file + " cannot be written");
    out_ << "workload,threads,store,median,least,greatest,answers,ratio,least ratio,greatest ratio" << std::endl;
}

void Csv::print(const std::vector<std::string> &names, const Line &line) {
    if (!out_.is_open()) return;
    for (std::size_t i = 0; i < line.cells.size(); i++) {
        const Times &times = line.cells[i];
        if (times.is_empty()) continue;
        out_ << line.workload << "," << line.threads << "," << names[i] << "," << picoseconds(times.median()) << ","
             << picoseconds(times.least()) << "," << picoseconds(times.greatest()) << ",";
        if (i < line.answers.size() && line.answers[i]) out_ << *line.answers[i];
        const Times ratios = times.over(line.cells[0]);
        if (ratios.is_empty()) out_ << ",,,";
        else out_ << "," << ratios.median() << "," << ratios.least() << "," << ratios.greatest();
        out_ << std::endl;
    }
    if (!out_) throw Failure("--csv: the file cannot be written");
}

Report::Report(std::ostream &out, Csv &csv, std::vector<std::string> names, const std::vector<std::string> &titles)
    : out_(out), csv_(csv), names_(std::move(names)) {
    out_ << "Workload | Threads";
    for (const std::string &title : titles) out_ << " | " << title;
    out_ << "\n--|--";
    for (std::size_t i = 0; i < titles.size(); i++) out_ << "|--";
    out_ << std::endl;
}

void Report::print(const Line &line) {
    out_ << line.workload << " | " << line.threads;
    for (std::size_t i = 0; i < line.cells.size(); i++)
        out_ << " | " << (i == 0 ? text_of(line.cells[i]) : compared(line.cells[i], line.cells[0]));
    out_ << std::endl;
    csv_.print(names_, line);
}

} // namespace bench
