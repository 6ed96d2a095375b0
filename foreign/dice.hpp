// Random choices, the same for a seed and a number on every machine.
#pragma once

#include "ciphers.hpp"

#include <random>

namespace foreign {

class Dice {
    std::mt19937_64 engine;

public:
    Dice(std::uint64_t seed, std::uint64_t number) {
        std::seed_seq sequence{seed, seed >> 32, number, number >> 32};
        engine.seed(sequence);
    }

    std::size_t below(std::size_t bound) { return engine() % bound; }
    std::size_t between(std::size_t least, std::size_t most) { return least + below(most - least + 1); }
    bool percent(unsigned chance) { return below(100) < chance; }
    std::uint8_t byte() { return static_cast<std::uint8_t>(engine()); }

    template <class List> auto pick(const List &list) { return *(std::begin(list) + below(std::size(list))); }

    // Mostly any bytes; now and then all alike, zeros and ones alone, or with many words of zeros.
    Bytes bytes(std::size_t length) {
        Bytes made(length);
        const std::size_t kind = below(10);
        const std::uint8_t one = byte();
        for (auto &each : made) each = kind == 0 ? one : kind == 1 ? std::uint8_t(percent(50) ? 0xFF : 0) : byte();
        if (kind == 2)
            for (std::size_t i = 0; i + 1 < length; i += 2)
                if (percent(50)) made[i] = made[i + 1] = 0;
        return made;
    }

    void flip_bit(Bytes &bytes, std::size_t first, std::size_t behind) {
        bytes[between(first, behind - 1)] ^= static_cast<std::uint8_t>(1u << below(8));
    }
};

} // namespace foreign
