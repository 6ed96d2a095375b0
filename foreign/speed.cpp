// Measures how fast libjinthoral.a seals, opens and sets up keys, beside OpenSSL, Crypto++ and Botan, and prints a report.
//
//     speed
//
// It ends with status 2, and measures nothing, where two of them disagree. scripts/compare-speed.sh builds and runs it.
#include "speed_report.hpp"

#include <cstdio>
#include <cstdlib>
#include <stdexcept>

using namespace foreign;

constexpr Family families_measured[] = {Family::Des, Family::Ede3, Family::Idea, Family::Xtea};
constexpr std::uint64_t seed = 1;
constexpr std::size_t rounds = 100;

static Contests make_contests() {
    Contests contests;
    for (const auto family : families_measured)
        for (const auto way : {Way::Sealing, Way::Opening}) contests.emplace_back(Task{family, way}, seed);
    return contests;
}

// A round goes through all contests, so that a slow second of the machine falls on each of them alike.
static void measure(Contests &contests) {
    for (const auto &contest : contests) contest.demand_agreement();
    for (std::size_t i = 0; i < rounds; i++)
        for (auto &contest : contests) contest.hold_round();
}

int main() {
    try {
        Contests contests = make_contests();
        measure(contests);
        print_report(contests);
        return EXIT_SUCCESS;
    } catch (const std::exception &error) {
        std::fprintf(stderr, "speed: %s\n", error.what());
    }
    return 2;
}
