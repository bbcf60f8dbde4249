// The store beside other ones: workloads that people know, one table.
#include "border.h"
#include "contest.h"
#include "mixes.h"
#include "options.h"
#include "waits.h"

#include <algorithm>
#include <cstdlib>
#include <iostream>

namespace {

using namespace bench;

void enter(std::unique_ptr<Entrant> entrant, const char *name, const Options &options, Entrants &entrants) {
    if (!is_chosen(options.stores, name)) return;
    if (entrant) entrants.push_back(std::move(entrant));
    else std::cerr << "bench: " << name << " is left out, as its package was not installed when this was built\n";
}

Entrants entrants_of(const Options &options) {
    Entrants entrants;
    enter(make_clsm(), "clsm", options, entrants);
    if (!options.stores.empty()) { // only where they are asked for
        enter(make_clsm_4096(), "clsm-4096", options, entrants);
        enter(make_clsm_16384(), "clsm-16384", options, entrants);
        enter(make_clsm_65536(), "clsm-65536", options, entrants);
        enter(make_clsm_plain(), "clsm-plain", options, entrants);
    }
    enter(make_leveldb(), "leveldb", options, entrants);
    enter(make_lmdb(), "lmdb", options, entrants);
    enter(make_tbb(), "tbb", options, entrants);
    enter(make_locked_map(), "map", options, entrants);
    return entrants;
}

void play_workloads(const Options &options, Csv &csv) {
    const auto is_played = [&options](const Workload &it) { return is_chosen(options.workloads, it.name); };
    if (std::none_of(all_workloads().begin(), all_workloads().end(), is_played)) return;
    const Entrants entrants = entrants_of(options);
    const Zipf ranks(options.keys);
    std::vector<std::string> names, titles;
    for (const auto &entrant : entrants) {
        names.emplace_back(entrant->name());
        titles.emplace_back(entrant->title());
    }
    Report report(std::cout, csv, names, titles);
    for (const Workload &workload : all_workloads())
        if (is_played(workload)) Contest(workload, options, ranks, entrants).play(report);
}

void play_border(const Options &options, Csv &csv) {
    if (!is_chosen(options.workloads, "border") || !is_chosen(options.stores, "clsm")) return;
    const std::vector<Crossing> crossings = measure_border(options.repeat);
    std::vector<std::string> names;
    Line gets = {"border get", 1, {}, {}}, puts = {"border put", 1, {}, {}};
    for (const Crossing &crossing : crossings) {
        names.push_back(crossing.name);
        gets.cells.push_back(crossing.get);
        puts.cells.push_back(crossing.put);
    }
    csv.print(names, gets);
    csv.print(names, puts);
    std::cout << "\n";
    for (const Crossing &crossing : crossings)
        std::cout << "border, " << crossing.title << ": get " << text_of(crossing.get) << ", put "
                  << text_of(crossing.put) << "\n";
    const Crossing &header = crossings[0], &core = crossings[1];
    std::cout << "border, clsm.h over the core: get " << text_of_rests(header.get.less(core.get)) << ", put "
              << text_of_rests(header.put.less(core.put)) << "\n";
}

int run(const std::vector<std::string> &arguments) {
    const Options options = read_options(arguments);
    if (options.help) {
        std::cout << usage;
        return EXIT_SUCCESS;
    }
    Csv csv(options.csv);
    play_workloads(options, csv);
    play_border(options, csv);
    // Seconds for each line: for who asks for them alone.
    if (options.workloads.empty()) return EXIT_SUCCESS;
    if (is_chosen(options.workloads, "mixes")) measure_mixes(options, std::cout);
    if (is_chosen(options.workloads, "waits")) measure_waits(options, std::cout);
    return EXIT_SUCCESS;
}

} // namespace

int main(int count, char **arguments) {
    try {
        return run({arguments + 1, arguments + count});
    } catch (const std::exception &failure) {
        std::cerr << "bench: " << failure.what() << "\n";
        return EXIT_FAILURE;
    }
}
