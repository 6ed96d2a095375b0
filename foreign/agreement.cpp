// Whether the sources agree (agreement.hpp).
#include "agreement.hpp"

#include "dice.hpp"

#include <cstdio>

namespace foreign {

constexpr std::size_t keys_tried = 4000, most_blocks = 8;

// A run as a cipher chains it: by the library's mode, or block by block.
static Bytes chained(Cipher &cipher, bool by_mode, Way way, const Bytes &start, Bytes run) {
    if (by_mode) cipher.chain(way, start.data(), run.data(), run.size());
    else cipher.Cipher::chain(way, start.data(), run.data(), run.size());
    return run;
}

// All sources seal and open one run alike, with their modes and block by block, and opening takes sealing back.
static bool agree_once(Dice &dice, const Stage &stage, const std::vector<Source> &sources) {
    const Bytes key = dice.bytes(facts_of(stage.family).key_bytes), start = dice.bytes(block_bytes);
    const Bytes run = dice.bytes(dice.between(1, most_blocks) * block_bytes);
    const auto first = make_cipher(sources[0], stage, key);
    const Bytes sealed = chained(*first, true, Way::Sealing, start, run),
                opened = chained(*first, true, Way::Opening, start, run);
    for (const Source source : sources) {
        const auto cipher = make_cipher(source, stage, key);
        for (const bool by_mode : {false, true}) {
            const bool alike = chained(*cipher, by_mode, Way::Sealing, start, run) == sealed &&
                               chained(*cipher, by_mode, Way::Opening, start, run) == opened &&
                               chained(*cipher, by_mode, Way::Opening, start, sealed) == run;
            if (!alike) return false;
        }
    }
    return true;
}

static bool agree(Dice &dice, const Stage &stage, std::vector<Source> sources) {
    std::string told = facts_of(stage.family).name;
    if (stage.count != 0) told += ":" + std::to_string(stage.count);
    told += ":";
    for (const Source source : sources)
        told += std::string(source == sources[0] ? " " : ", ") + source_names[std::size_t(source)];
    std::size_t agreed = 0;
    for (std::size_t i = 0; i < keys_tried; i++) agreed += agree_once(dice, stage, sources);
    std::printf("  %-50s %zu of %zu keys\n", told.c_str(), agreed, keys_tried);
    return agreed == keys_tried;
}

bool sources_agree(std::uint64_t seed) {
    std::printf("The sources among themselves, sealing and opening, with their chaining and block by block:\n");
    Dice dice(seed, 0);
    bool all = true;
    for (const FamilyFacts &facts : families) {
        const Stage stage{facts.family, facts.full_count};
        std::vector<Source> sources = sources_of(stage);
        if (facts.family == Family::Idea) sources.push_back(Source::Here);
        if (sources.size() > 1) all = agree(dice, stage, sources) && all;
    }
    return all;
}

} // namespace foreign
