// What was met and what agreed (tally.hpp).
#include "tally.hpp"

#include <algorithm>
#include <cstdio>

namespace foreign {

// What the expected answer rests on.
enum class Basis { Libraries, Whitening, FewerRounds, NoBlock };

constexpr const char *basis_names[] = {
    "every stage by a foreign library",
    "with whitening, which is joined here",
    "with idea:1 to idea:7, against our own second reading",
    "no block passed: the documents alone",
};

void Tally::Cell::add(bool was_done, bool did_agree) {
    cases++;
    done += was_done;
    agreed += did_agree;
}

static bool passes_blocks(const Case &asked, const Reply &expected) {
    const bool empty_run = asked.call <= Call::Open && asked.room.empty();
    const bool body_was_opened = asked.call == Call::OpenTrace && (expected.refusal == 14 || expected.refusal == 15);
    return (expected.refusal == 0 && !empty_run) || body_was_opened;
}

static bool is_whitening(const Stage &stage) { return stage.family == Family::Wxor || stage.family == Family::Wadd; }

static bool has_fewer_rounds(const Stage &stage) {
    return stage.family == Family::Idea && stage.count != facts_of(Family::Idea).full_count;
}

static Basis basis_of(const Plan &plan) {
    if (std::any_of(plan.begin(), plan.end(), has_fewer_rounds)) return Basis::FewerRounds;
    return std::any_of(plan.begin(), plan.end(), is_whitening) ? Basis::Whitening : Basis::Libraries;
}

void Tally::add_sources(const Case &asked, const Reply &expected, bool did_agree) {
    Basis basis = Basis::NoBlock;
    if (passes_blocks(asked, expected)) {
        const Plan plan = read_plan(asked.description);
        basis = basis_of(plan);
        for (const Source source : sources_of(plan, asked.number)) stages_of[std::size_t(source)]++;
    }
    of_basis[std::size_t(basis)].add(expected.refusal == 0, did_agree);
}

void Tally::add(const Case &asked, const Reply &expected, bool did_agree) {
    const auto call = std::size_t(asked.call);
    const bool done = expected.refusal == 0;
    cases++;
    agreed += did_agree;
    of_row[std::size_t(asked.row)][call].add(done, did_agree);
    if (asked.call == Call::OpenTrace) of_damage[std::size_t(asked.damage)].add(done, did_agree);
    refusals[expected.refusal][call]++;
    add_sources(asked, expected, did_agree);
}

static void print_head(const char *what) {
    std::printf("\n%-58s %8s %8s %8s %8s\n", what, "cases", "agree", "done", "refused");
}

template <class Cell> static void print_cell(const std::string &name, const Cell &cell) {
    std::printf("  %-56s %8zu %8zu %8zu %8zu\n", name.c_str(), cell.cases, cell.agreed, cell.done, cell.refused());
}

void Tally::print() const {
    print_head("Family and call");
    for (std::size_t row = 0; row < rows; row++)
        for (std::size_t call = 0; call < calls; call++)
            print_cell(std::string(row_names[row]) + ", " + call_names[call], of_row[row][call]);
    print_head("Files that were opened");
    for (std::size_t damage = 0; damage < damages; damage++) print_cell(damage_names[damage], of_damage[damage]);
    print_head("What the expected answer rests on");
    for (std::size_t basis = 0; basis < std::size(basis_names); basis++) print_cell(basis_names[basis], of_basis[basis]);
    std::printf("\nStages under which blocks were passed, by source:");
    for (std::size_t source = 0; source < std::size(source_names); source++)
        std::printf("%s %s %zu", source == 0 ? "" : ",", source_names[source], stages_of[source]);
    std::printf("\n\n%-20s", "Refusals that were met");
    for (const char *name : call_names) std::printf(" %14s", name);
    for (std::size_t refusal = 1; refusal <= greatest_refusal; refusal++) {
        std::printf("\n%22zu", refusal);
        for (std::size_t call = 0; call < calls; call++) std::printf(" %14zu", refusals[refusal][call]);
    }
    std::printf("\n\n%zu files closed by the library were opened by the reference side\n", reopened);
}

static bool can_refuse(Call call, std::size_t refusal) {
    if (refusal <= 6) return true;
    if (call == Call::CloseTrace) return refusal == 7 || refusal == 8 || refusal == 11 || refusal == 15;
    return call == Call::OpenTrace ? refusal >= 12 : refusal <= 9;
}

bool Tally::all_met() const {
    bool all = true;
    const auto demand = [&](bool met, const std::string &what) {
        if (!met) std::printf("not met: %s\n", what.c_str());
        all = all && met;
    };
    for (std::size_t call = 0; call < calls; call++) {
        const std::string at = std::string(", ") + call_names[call];
        for (std::size_t row = 0; row < rows; row++) {
            demand(of_row[row][call].done != 0, row_names[row] + at + ", done");
            demand(of_row[row][call].refused() != 0, row_names[row] + at + ", refused");
        }
        for (std::size_t refusal = 1; refusal <= greatest_refusal; refusal++)
            demand(!can_refuse(Call(call), refusal) || refusals[refusal][call] != 0, "refusal " + std::to_string(refusal) + at);
    }
    for (std::size_t damage = 0; damage < damages; damage++) demand(of_damage[damage].cases != 0, damage_names[damage]);
    for (std::size_t source = 0; source < std::size(source_names); source++)
        demand(stages_of[source] != 0, source_names[source]);
    return all;
}

} // namespace foreign
