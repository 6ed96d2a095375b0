// Our libraries as a contestant. The one call of jinthoral does everything: it reads the description, fits the pile and passes
// the run. The calls of one_block set up a key and pass one block.
#include "contestants.hpp"
#include "jinthoral.h"
#include "one_block.h"

#include <cstring>
#include <stdexcept>

namespace foreign {

using OneBlock = std::uint64_t (*)(const std::uint8_t *key, std::size_t key_length, bool opening, std::uint64_t block);

static OneBlock one_block_of(Family family) {
    switch (family) {
    case Family::Des: return one_block_des;
    case Family::Ede3: return one_block_ede3;
    case Family::Idea: return one_block_idea;
    case Family::Xtea: return one_block_xtea;
    default: throw std::invalid_argument("one_block has no such cipher");
    }
}

// The kit is for x86-64 alone, where the lowest byte of a number is the first.
static std::uint64_t number_of(const std::uint8_t *block) {
    std::uint64_t number;
    std::memcpy(&number, block, block_bytes);
    return __builtin_bswap64(number);
}

static void write_number(std::uint64_t number, std::uint8_t *block) {
    number = __builtin_bswap64(number);
    std::memcpy(block, &number, block_bytes);
}

class LibraryContestant : public Contestant {
    const std::string description;
    const OneBlock one_block;
    const bool opening;
    const Bytes key;
    Bytes blanked, sealed;

    void pass(std::uint8_t *taken_key, bool opening, const std::uint8_t *start, std::uint8_t *run, std::size_t length) const {
        const auto *const text = reinterpret_cast<const std::uint8_t *>(description.data());
        const jinthoral_reply reply =
            jinthoral_pass(text, description.size(), taken_key, key.size(), opening, start, block_bytes, run, length);
        if (reply.refusal != 0) throw std::runtime_error("the library refuses a run under " + description);
    }

public:
    LibraryContestant(const Task &task, const Bytes &key)
        : description(facts_of(task.family).name), one_block(one_block_of(task.family)), opening(task.way == Way::Opening),
          key(key), blanked(key.size()) {}

    void chain(const std::uint8_t *start, std::uint8_t *run, std::size_t length) override {
        blanked = key;
        pass(blanked.data(), opening, start, run, length);
    }

    void set_keys(Bytes &batch) override {
        const std::uint8_t start[block_bytes] = {};
        std::uint8_t empty_run;
        for (std::size_t i = 0; i < batch.size(); i += key.size()) pass(&batch[i], opening, start, &empty_run, 0);
    }

    void pass_under_each(Bytes &batch, std::uint8_t *block) override {
        for (std::size_t i = 0; i < batch.size(); i += key.size()) {
            tie(&batch[i], block);
            write_number(one_block(&batch[i], key.size(), opening, number_of(block)), block);
        }
    }

    // No call passes one block under a key that is set up. In a run that is sealed, too, each block waits for the one before;
    // and an opener takes as long for a block, since it is the same network under other words of the key.
    void pass_again(std::uint8_t *block, std::size_t times) override {
        blanked = key;
        sealed.resize(times * block_bytes);
        pass(blanked.data(), false, block, sealed.data(), sealed.size());
        std::copy(sealed.end() - block_bytes, sealed.end(), block);
    }
};

std::unique_ptr<Contestant> make_library_contestant(const Task &task, const Bytes &key) {
    return std::make_unique<LibraryContestant>(task, key);
}

} // namespace foreign
