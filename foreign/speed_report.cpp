#include "speed_report.hpp"

#include <cstdio>
#include <ctime>
#include <fstream>
#include <unistd.h>

namespace foreign {

static std::string number(double value, int decimals) {
    char text[64];
    std::snprintf(text, sizeof text, "%.*f", decimals, value);
    return text;
}

static std::string cell(const std::optional<double> &value, int decimals) { return value ? number(*value, decimals) : "–"; }

static std::string bold_if(bool marked, const std::string &text) { return marked ? "**" + text + "**" : text; }

static void print_row(const std::vector<std::string> &cells) {
    for (const auto &each : cells) std::printf("| %s ", each.c_str());
    std::printf("|\n");
}

// The first two columns hold text, all others numbers.
static void print_head(const std::vector<std::string> &titles) {
    print_row(titles);
    std::printf("|---|---|");
    for (std::size_t i = 2; i < titles.size(); i++) std::printf("--:|");
    std::printf("\n");
}

static std::vector<std::string> first_cells(const Task &task) {
    return {std::string("`") + facts_of(task.family).name + "`", task.way == Way::Sealing ? "sealing" : "opening"};
}

static std::string today() {
    const std::time_t now = std::time(nullptr);
    char text[32];
    std::strftime(text, sizeof text, "%Y-%m-%d", std::gmtime(&now));
    return text;
}

static std::string processor() {
    std::ifstream facts("/proc/cpuinfo");
    for (std::string line; std::getline(facts, line);)
        if (line.rfind("model name", 0) == 0) return line.substr(line.find(':') + 2);
    return "a processor of unknown kind";
}

static void print_circumstances() {
    std::printf("Measured on %s (UTC) on %s, %ld processors, with %s; %s; %s. The benchmark was compiled by g++ %s.\n\n",
                today().c_str(), processor().c_str(), sysconf(_SC_NPROCESSORS_ONLN), openssl_version().c_str(),
                cryptopp_version().c_str(), botan_version().c_str(), __VERSION__);
}

// The least of what `of` tells of the peers, but for one of them.
template <class Of> static double fastest_peer(const Of &of, std::optional<Entrant> left_out = std::nullopt) {
    double least = std::numeric_limits<double>::infinity();
    for (std::size_t i = 1; i < entrants; i++)
        if (const auto entrant = static_cast<Entrant>(i); entrant != left_out)
            if (const auto time = of(entrant)) least = std::min(least, *time);
    return least;
}

static std::string speed_ratio(double ours, double peer) {
    const std::string ratio = number(peer / ours, 2);
    return bold_if(peer < ours, ratio);
}

static void print_chains(const Contests &contests) {
    std::printf("### Runs of %zu bytes\n\n", run_bytes);
    std::printf("Cipher block chaining in place, in MB/s (millions of bytes in a second). A ratio is our speed by that of the "
                "fastest peer; below 1 it is bold.\n\n");
    std::vector<std::string> titles = {"cipher", "way"};
    titles.insert(titles.end(), std::begin(entrant_names), std::end(entrant_names));
    titles.insert(titles.end(), {"ours / fastest peer", "ours / fastest without SIMD"});
    print_head(titles);
    for (const auto &contest : contests) {
        const auto time = [&](Entrant entrant) { return contest.chain_time(entrant); };
        auto cells = first_cells(contest.task);
        for (std::size_t i = 0; i < entrants; i++) {
            const auto nanoseconds = time(static_cast<Entrant>(i));
            cells.push_back(nanoseconds ? number(run_bytes * 1e3 / *nanoseconds, 1) : "–");
        }
        const double ours = *time(Entrant::Library);
        cells.push_back(speed_ratio(ours, fastest_peer(time)));
        const bool opening = contest.task.way == Way::Opening;
        cells.push_back(opening ? speed_ratio(ours, fastest_peer(time, Entrant::Botan)) : "");
        print_row(cells);
    }
}

// Setting a key has nothing to do with SIMD, so Botan stands here once.
constexpr Entrant key_setters[] = {Entrant::Library, Entrant::OpenSsl, Entrant::CryptoPp, Entrant::Botan};
constexpr double most_key_ratio = 3;

using KeyTime = std::optional<double> (Contest::*)(Entrant) const;

static void print_key_times(const Contests &contests, KeyTime key_time) {
    std::vector<std::string> titles = {"cipher", "way"};
    for (const auto entrant : key_setters) titles.push_back(entrant_names[static_cast<std::size_t>(entrant)]);
    titles.push_back("ours / fastest peer");
    print_head(titles);
    for (const auto &contest : contests) {
        const auto time = [&](Entrant entrant) { return (contest.*key_time)(entrant); };
        auto cells = first_cells(contest.task);
        for (const auto entrant : key_setters) cells.push_back(cell(time(entrant), 0));
        const double ratio = *time(Entrant::Library) / fastest_peer(time, Entrant::BotanWithoutSimd);
        cells.push_back(bold_if(ratio > most_key_ratio, number(ratio, 2)));
        print_row(cells);
    }
}

static void print_keys(const Contests &contests) {
    std::printf("\n### Keys, in a whole call\n\n");
    std::printf("Nanoseconds for one key, of batches of %zu keys. Ours is a whole call with an empty run; a peer sets up a key "
                "and no more. A ratio is our time by that of the fastest peer; above %.0f it is bold.\n\n",
                keys_in_batch, most_key_ratio);
    print_key_times(contests, &Contest::key_time);
    std::printf("\n### A new key and one block\n\n");
    std::printf("Nanoseconds for setting up a key and passing one block under it, of batches of %zu keys. All do the same here.\n\n",
                keys_in_batch);
    print_key_times(contests, &Contest::first_block_time);
    std::printf("\n### Keys alone\n\n");
    std::printf("The same nanoseconds, less those for another block under the same key.\n\n");
    print_key_times(contests, &Contest::key_alone_time);
}

static void print_short_runs(const Contests &contests) {
    std::printf("\n### Runs of other lengths\n\n");
    std::printf("Our nanoseconds for a call with a run of so many blocks, and behind them those for a block, when the time of "
                "the call with no block is taken off.\n\n");
    std::vector<std::string> titles = {"cipher", "way"};
    for (const auto blocks : blocks_measured) titles.push_back(std::to_string(blocks));
    print_head(titles);
    for (const auto &contest : contests) {
        auto cells = first_cells(contest.task);
        const double empty = contest.short_run_time(0);
        for (std::size_t i = 0; i < std::size(blocks_measured); i++) {
            const double call = contest.short_run_time(i);
            const auto blocks = static_cast<double>(blocks_measured[i]);
            cells.push_back(number(call, 0) + (i == 0 ? "" : " (" + number((call - empty) / blocks, 1) + ")"));
        }
        print_row(cells);
    }
}

void print_report(const Contests &contests) {
    print_circumstances();
    print_chains(contests);
    print_keys(contests);
    print_short_runs(contests);
}

} // namespace foreign
