// Contestants taking turns, and the least time that each needed.
#pragma once

#include "contestants.hpp"

#include <algorithm>
#include <array>
#include <chrono>
#include <limits>
#include <optional>

namespace foreign {

constexpr std::size_t run_bytes = 32768, keys_in_batch = 256, times_again = 4096;
constexpr std::size_t blocks_measured[] = {0, 1, 8, 64, 512, 4096};

class Least {
    double least = std::numeric_limits<double>::infinity();

public:
    template <class Work> void time(const Work &work) {
        using Clock = std::chrono::steady_clock;
        const auto before = Clock::now();
        work();
        const auto after = Clock::now();
        least = std::min(least, std::chrono::duration<double, std::nano>(after - before).count());
    }

    double nanoseconds() const { return least; }
};

// Whoever has the cipher of a task, with what each is given. The data and keys are the same for all.
class Contest {
    struct Place {
        std::unique_ptr<Contestant> contestant; // none where the entrant has no such cipher
        Least chain, keys, firsts, again;
    };

    std::array<Place, entrants> places;
    std::array<Least, std::size(blocks_measured)> short_runs;
    Bytes key, start, plain, batch;

    void take_turn(Place &place);
    void take_short_runs();
    Bytes chained(Contestant &contestant) const;
    Bytes passed_under_each(Contestant &contestant) const;
    std::optional<double> told(Entrant entrant, const Least Place::*work) const;

public:
    const Task task;

    Contest(const Task &task, std::uint64_t seed);

    // Throws where a contestant does not make of the run, or of a block under a batch of keys, what ours makes of it.
    void demand_agreement() const;

    void hold_round();

    // Nanoseconds, or nothing where the entrant does not take part: for the long run, for one of the keys set up, for a new key
    // and one block under it, for the same without the time of another block under the same key, and for one of the runs of
    // `blocks_measured`, which are ours alone.
    std::optional<double> chain_time(Entrant entrant) const { return told(entrant, &Place::chain); }
    std::optional<double> key_time(Entrant entrant) const;
    std::optional<double> first_block_time(Entrant entrant) const;
    std::optional<double> key_alone_time(Entrant entrant) const;
    double short_run_time(std::size_t which) const;
};

} // namespace foreign
