// The reference side: what each call of the library has to answer and leave. It is written from docs/DESCRIPTIONS.md,
// CIPHERS.md, CHAINING.md, TRACES.md and REFUSALS.md alone, over the ciphers of ciphers.hpp.
#pragma once

#include "ciphers.hpp"

namespace foreign {

constexpr std::size_t longest_description = 64, most_stages = 4, longest_run = 32768, longest_plain = longest_run - 1;
constexpr std::size_t header_bytes = 8, before_body = header_bytes + block_bytes;
constexpr std::size_t shortest_file = before_body + block_bytes, longest_file = before_body + longest_run;
constexpr std::uint32_t greatest_axis = 1, greatest_serial = 0xFFFFFF;

struct Label {
    std::uint32_t axis = 0, serial = 0, number = 0;
};

// What a call answers. The refusal is 0 where it was done, and the label is zeros but where a file was opened.
struct Reply {
    std::uint64_t refusal = 0;
    std::size_t place = 0, length = 0;
    Label label;
};

using Plan = std::vector<Stage>;

// Thrown by `read_plan`; the three calls answer with it.
struct Refusal {
    std::uint64_t number;
    std::size_t place;
};

Plan read_plan(const Bytes &description);

std::size_t key_bytes_of(const Plan &plan);

// The source of each stage: of those that have its cipher, one after another, from the one that `turn` tells.
std::vector<Source> sources_of(const Plan &plan, std::size_t turn);

// The ciphers of a plan one after another, as one.
class Pile : public Cipher {
    std::vector<std::unique_ptr<Cipher>> stages;

public:
    Pile(const Plan &plan, const Bytes &key, std::size_t turn);

    void pass(Way way, std::uint8_t *block) override;
    void chain(Way way, const std::uint8_t *start, std::uint8_t *run, std::size_t length) override;
};

Bytes padded(Bytes plain);
Bytes header_of(const Label &label);

// The three calls. Each leaves zeros in the key, and writes the run, or the first bytes of the output, where it does not
// refuse.
Reply pass_run(const Bytes &description, Bytes &key, Way way, const Bytes &start, Bytes &run, std::size_t turn);
Reply close_trace(const Bytes &description, Bytes &key, const Label &label, const Bytes &start, const Bytes &plain,
                  Bytes &output, std::size_t turn);
Reply open_trace(const Bytes &description, Bytes &key, const Bytes &file, Bytes &output, std::size_t turn);

} // namespace foreign
