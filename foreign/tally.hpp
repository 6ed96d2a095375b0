// What was met and what agreed, counted and printed.
#pragma once

#include "cases.hpp"

namespace foreign {

constexpr std::size_t greatest_refusal = 15;

class Tally {
    struct Cell {
        std::size_t cases = 0, agreed = 0, done = 0;

        std::size_t refused() const { return cases - done; }
        void add(bool was_done, bool did_agree);
    };

    Cell of_row[rows][calls];
    Cell of_damage[damages];
    std::size_t refusals[greatest_refusal + 1][calls] = {};
    std::size_t stages_of[std::size(source_names)] = {};
    Cell of_basis[4];

    void add_sources(const Case &asked, const Reply &expected, bool agreed);

public:
    std::size_t cases = 0, agreed = 0, spoiled = 0, reopened = 0;

    void add(const Case &asked, const Reply &expected, bool did_agree);
    void print() const;

    // Prints each row, refusal and damage that was not met at all. True where there is none.
    bool all_met() const;
};

} // namespace foreign
