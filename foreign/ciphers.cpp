// Which source has which cipher, and chaining for ciphers that have no mode of their own (docs/CHAINING.md).
#include "ciphers.hpp"

#include <algorithm>
#include <array>

namespace foreign {

using Block = std::array<std::uint8_t, block_bytes>;

static Block block_at(const std::uint8_t *bytes) {
    Block block;
    std::copy_n(bytes, block_bytes, block.begin());
    return block;
}

static void join(std::uint8_t *block, const Block &with) {
    for (std::size_t i = 0; i < block_bytes; i++) block[i] ^= with[i];
}

void Cipher::chain(Way way, const std::uint8_t *start, std::uint8_t *run, std::size_t length) {
    Block sealed_before = block_at(start);
    for (std::uint8_t *block = run; block != run + length; block += block_bytes) {
        if (way == Way::Sealing) {
            join(block, sealed_before);
            pass(way, block);
            sealed_before = block_at(block);
        } else {
            const Block sealed = block_at(block);
            pass(way, block);
            join(block, sealed_before);
            sealed_before = sealed;
        }
    }
}

std::vector<Source> sources_of(const Stage &stage) {
    const bool full = stage.count == facts_of(stage.family).full_count;
    switch (stage.family) {
    case Family::Des:
    case Family::Ede2:
    case Family::Ede3: return {Source::OpenSsl, Source::CryptoPp, Source::Botan};
    case Family::Xtea: return full ? std::vector{Source::CryptoPp, Source::Botan} : std::vector{Source::CryptoPp};
    case Family::Idea: return full ? std::vector{Source::CryptoPp, Source::Botan} : std::vector{Source::Here};
    default: return {Source::Here};
    }
}

std::unique_ptr<Cipher> make_cipher(Source source, const Stage &stage, const Bytes &key) {
    switch (source) {
    case Source::OpenSsl: return make_openssl(stage, key);
    case Source::CryptoPp: return make_cryptopp(stage, key);
    case Source::Botan: return make_botan(stage, key);
    default: return make_here(stage, key);
    }
}

} // namespace foreign
