#include "options.h"
#include "entrant.h"

#include <algorithm>
#include <charconv>

namespace bench {

const char *const usage =
    "usage: bench [--workloads A,B,..] [--stores clsm,..] [--threads 1,2,4] [--keys N] [--operations N]\n"
    "             [--repeat R] [--csv FILE] [--line NAME] [--calls N]\n"
    "\n"
    "Prints a Markdown table of the nanoseconds of a call, of a row for readseq, of a key for multiget:\n"
    "the median of the runs. That is wall time, divided by the calls of all threads. In brackets are the\n"
    "least and the greatest of the runs, for the first store of its times, for the others of the ratio\n"
    "of their time to the first store's in the same run: above 1 the first one is faster. Ends with 1 if\n"
    "the stores' answers differ where they must not.\n"
    "\n"
    "--workloads   A, B, C, D, E, F of YCSB; fillseq, fillrandom, overwrite, readrandom, readhot,\n"
    "              readmissing, readseq, seekrandom, deleterandom, readwhilewriting and\n"
    "              readwhilescanning of db_bench; multiget, 16 keys at one time; transfers from one key\n"
    "              to another, which keep the sum of all words; readreverse, 16 rows from a key down;\n"
    "              seeklast, the last row up to a key that is not there; border, the least time of a call\n"
    "              through C. Default: all.\n"
    "              And waits, how long single calls take beside what makes them wait; mixes, the lines of\n"
    "              clsm_bench through clsm.h, as that prints them\n"
    "--stores      clsm, leveldb, lmdb, tbb, map. Default: all that were installed when this was built.\n"
    "              And clsm-4096, clsm-16384, clsm-65536: with epochs of so many writes; clsm-plain:\n"
    "              multiget by 16 gets one by one, and readreverse by the same 16 rows upwards\n"
    "--threads     how many threads call, 1 to 32 each. Default: 1,2,4\n"
    "--keys        loaded before each workload but the fills, 100 to 4,000,000. Default: 1,000,000, in\n"
    "              mixes 32,768\n"
    "--operations  calls of all threads in a run, 100 to 16,000,000. Default: 200,000\n"
    "--repeat      runs of each line, 1 to 99. Default: 5\n"
    "--csv         also writes workload,threads,store,median,least,greatest,answers and the ratios to\n"
    "              this file: picoseconds, and the checksum of the answers if the seed determines them\n"
    "--line        of mixes, the line of this name alone\n"
    "--calls       of mixes, those of a thread, 1 to 16,000,000. Default: 20,000, and of puts that are\n"
    "              sustained 1,000,000 of all threads\n";

namespace {

std::vector<std::string> parts_of(const std::string &list) {
    std::vector<std::string> parts(1);
    for (const char c : list) {
        if (c == ',') parts.emplace_back();
        else parts.back() += c;
    }
    return parts;
}

std::uint64_t number_of(const std::string &option, const std::string &text, std::uint64_t least,
                        std::uint64_t greatest) {
    std::uint64_t number = 0;
    const char *end = text.data() + text.size();
    const auto [stop, error] = std::from_chars(text.data(), end, number);
    if (error != std::errc() || stop != end || number < least || number > greatest)
        throw Failure(option + ": " + text + " is not a number from " + std::to_string(least) + " to "
                      + std::to_string(greatest));
    return number;
}

std::vector<std::string> names_of(const std::string &option, const std::string &list,
                                  const std::vector<std::string> &known) {
    std::vector<std::string> names = parts_of(list);
    for (const std::string &name : names)
        if (std::find(known.begin(), known.end(), name) == known.end()) throw Failure(option + ": no " + name);
    return names;
}

const std::vector<std::string> store_names = {"clsm", "clsm-4096", "clsm-16384", "clsm-65536",
                                              "clsm-plain", "leveldb", "lmdb", "tbb", "map"};

std::vector<std::string> workload_names() {
    std::vector<std::string> names = {"border", "mixes", "waits"};
    for (const Workload &workload : all_workloads()) names.emplace_back(workload.name);
    return names;
}

void set(Options &options, const std::string &option, const std::string &value) {
    if (option == "--workloads") options.workloads = names_of(option, value, workload_names());
    else if (option == "--stores") options.stores = names_of(option, value, store_names);
    else if (option == "--csv") options.csv = value;
    else if (option == "--line") options.line = value;
    else if (option == "--keys") options.keys = options.keys_of_mixes = number_of(option, value, 100, 4'000'000);
    else if (option == "--calls") options.calls = number_of(option, value, 1, 16'000'000);
    else if (option == "--operations") options.operations = number_of(option, value, 100, 16'000'000);
    else if (option == "--repeat") options.repeat = number_of(option, value, 1, 99);
    else if (option == "--threads") {
        options.threads.clear();
        for (const std::string &part : parts_of(value)) options.threads.push_back(number_of(option, part, 1, 32));
    } else throw Failure("no option " + option + "; --help lists them");
}

} // namespace

Options read_options(const std::vector<std::string> &arguments) {
    Options options;
    for (std::size_t i = 0; i < arguments.size(); i++) {
        if (arguments[i] == "--help") options.help = true;
        else if (i + 1 == arguments.size()) throw Failure(arguments[i] + ": no value, or no such option");
        else {
            set(options, arguments[i], arguments[i + 1]);
            i++;
        }
    }
    return options;
}

bool is_chosen(const std::vector<std::string> &list, const std::string &name) {
    return list.empty() || std::find(list.begin(), list.end(), name) != list.end();
}

} // namespace bench
