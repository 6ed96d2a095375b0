// Block ciphers of OpenSSL, Crypto++ and Botan behind one interface, beside the two that none of them has: whitening, and IDEA
// with fewer than eight rounds.
#pragma once

#include <cstddef>
#include <cstdint>
#include <memory>
#include <string>
#include <vector>

namespace foreign {

using Bytes = std::vector<std::uint8_t>;

constexpr std::size_t block_bytes = 8;

enum class Way { Sealing, Opening };

// A block cipher under its key. Both calls rewrite what they are given.
class Cipher {
public:
    virtual ~Cipher() = default;

    virtual void pass(Way way, std::uint8_t *block) = 0;

    // Cipher block chaining of whole blocks, by the library's own mode where it has one.
    virtual void chain(Way way, const std::uint8_t *start, std::uint8_t *run, std::size_t length);
};

enum class Family { Des, Ede2, Ede3, Idea, Xtea, Wxor, Wadd };

struct FamilyFacts {
    Family family;
    const char *name;
    std::size_t key_bytes;
    unsigned full_count; // 0 where the family takes no count
};

constexpr FamilyFacts families[] = {
    {Family::Des, "des", 8, 0},     {Family::Ede2, "ede2", 16, 0}, {Family::Ede3, "ede3", 24, 0}, {Family::Idea, "idea", 16, 8},
    {Family::Xtea, "xtea", 16, 32}, {Family::Wxor, "wxor", 8, 0},  {Family::Wadd, "wadd", 8, 0},
};

constexpr const FamilyFacts &facts_of(Family family) { return families[static_cast<std::size_t>(family)]; }

struct Stage {
    Family family;
    unsigned count; // rounds of IDEA, cycles of XTEA, else 0
};

// Where a cipher comes from. `Here` is second_reading.cpp.
enum class Source { OpenSsl, CryptoPp, Botan, Here };

constexpr const char *source_names[] = {"OpenSSL", "Crypto++", "Botan", "second reading"};

// The sources that have the cipher of a stage. There is at least one.
std::vector<Source> sources_of(const Stage &stage);

std::unique_ptr<Cipher> make_cipher(Source source, const Stage &stage, const Bytes &key);

// What each source makes; `make_cipher` calls these.
std::unique_ptr<Cipher> make_openssl(const Stage &stage, const Bytes &key);
std::unique_ptr<Cipher> make_cryptopp(const Stage &stage, const Bytes &key);
std::unique_ptr<Cipher> make_botan(const Stage &stage, const Bytes &key);
std::unique_ptr<Cipher> make_here(const Stage &stage, const Bytes &key);

std::string openssl_version();
std::string cryptopp_version();
std::string botan_version();

} // namespace foreign
