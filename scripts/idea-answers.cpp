// Known answers of IDEA with ASKED rounds, made with Crypto++: of the lines `idea:ASKED;key;text;sealed` on standard
// input, and if ASKED is 8 of those with `idea` too, prints each with the block that Crypto++ seals the text to.
//
// Crypto++ has IDEA with eight rounds only. Its source is compiled here with another number in that place:
//
//     apt-get install g++ dpkg-dev libcrypto++-dev && (cd /tmp && apt-get source libcrypto++)
//     for n in 1 2 3 4 5 6 7 8; do
//         g++ -DASKED=$n -I/tmp/libcrypto++-8.7.0+git220824 -o /tmp/idea-answers scripts/idea-answers.cpp -lcryptopp
//         /tmp/idea-answers < crates/vectors/stdin
//     done
#include "pch.h"
#include "misc.h"
#include "seckey.h"

namespace CryptoPP {
template <unsigned> class AskedRounds : public FixedRounds<ASKED> {};
}
#define FixedRounds AskedRounds
#include "idea.cpp"
#undef FixedRounds

#include <cstdio>
#include <iostream>
#include <regex>
#include <vector>

using Bytes = std::vector<CryptoPP::byte>;

static Bytes bytes(const std::string &digits) {
    Bytes out;
    for (size_t i = 0; i < digits.size(); i += 2) out.push_back(std::stoi(digits.substr(i, 2), nullptr, 16));
    return out;
}

int main() {
    static_assert(CryptoPP::IDEA::ROUNDS == ASKED, "Crypto++ takes another number of rounds");
    const std::string name = "idea:" + std::to_string(ASKED);
    const std::regex form("((idea(?::.)?);([0-9A-Fa-f]{32});([0-9A-Fa-f]{16});)[0-9A-Fa-f]{16}");
    std::smatch field;
    for (std::string line; std::getline(std::cin, line);) {
        if (!std::regex_match(line, field, form)) continue;
        if (field[2] != name && !(ASKED == 8 && field[2] == "idea")) continue;
        const Bytes key = bytes(field[3]), text = bytes(field[4]);
        Bytes sealed(8);
        CryptoPP::IDEA::Encryption(key.data(), key.size()).ProcessBlock(text.data(), sealed.data());
        std::printf("%s", field[1].str().c_str());
        for (auto byte : sealed) std::printf("%02X", byte);
        std::putchar('\n');
    }
}
