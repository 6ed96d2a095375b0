// DES, triple DES, IDEA and XTEA of Botan as contestants, with SIMD and without.
#include "contestants.hpp"

// Botan 2 warns that cpuid.h is no part of its interface in Botan 3.
#define BOTAN_NO_DEPRECATED_WARNINGS
#include <botan/block_cipher.h>
#include <botan/cipher_mode.h>
#include <botan/cpuid.h>
#include <stdexcept>

namespace foreign {

// Botan asks at every call what the processor has. What it believes holds for the whole program.
static void let_use_simd(bool allowed) {
    using CPUID = Botan::CPUID;
    CPUID::initialize();
    if (allowed) return;
    for (const auto bit :
         {CPUID::CPUID_SSE2_BIT, CPUID::CPUID_SSSE3_BIT, CPUID::CPUID_SSE41_BIT, CPUID::CPUID_SSE42_BIT, CPUID::CPUID_AVX2_BIT,
          CPUID::CPUID_AVX512F_BIT, CPUID::CPUID_AVX512DQ_BIT, CPUID::CPUID_AVX512BW_BIT, CPUID::CPUID_AVX512_ICL_BIT})
        CPUID::clear_cpuid_bit(bit);
}

class BotanContestant : public Contestant {
    const std::size_t key_bytes;
    const Botan::Cipher_Dir direction;
    const bool with_simd;
    const std::unique_ptr<Botan::BlockCipher> cipher;
    const std::unique_ptr<Botan::Cipher_Mode> chained;

    void pass(std::uint8_t *block) const {
        if (direction == Botan::ENCRYPTION) cipher->encrypt(block);
        else cipher->decrypt(block);
    }

public:
    BotanContestant(const std::string &name, Botan::Cipher_Dir direction, const Bytes &key, bool with_simd)
        : key_bytes(key.size()), direction(direction), with_simd(with_simd),
          cipher(Botan::BlockCipher::create_or_throw(name)),
          chained(Botan::Cipher_Mode::create_or_throw(name + "/CBC/NoPadding", direction)) {
        chained->set_key(key.data(), key.size());
        cipher->set_key(key.data(), key.size());
        prepare();
    }

    // The cipher itself tells which of its forms it will take.
    void prepare() override {
        let_use_simd(with_simd);
        if (!with_simd && cipher->provider() != "base") throw std::runtime_error("Botan does not let go of SIMD");
    }

    void chain(const std::uint8_t *start, std::uint8_t *run, std::size_t length) override {
        chained->start(start, block_bytes);
        chained->process(run, length);
    }

    void set_keys(Bytes &batch) override {
        for (std::size_t i = 0; i < batch.size(); i += key_bytes) cipher->set_key(&batch[i], key_bytes);
    }

    void pass_under_each(Bytes &batch, std::uint8_t *block) override {
        for (std::size_t i = 0; i < batch.size(); i += key_bytes) {
            tie(&batch[i], block);
            cipher->set_key(&batch[i], key_bytes);
            pass(block);
        }
    }

    void pass_again(std::uint8_t *block, std::size_t times) override {
        for (std::size_t i = 0; i < times; i++) pass(block);
    }
};

static const char *name_of(Family family) {
    switch (family) {
    case Family::Des: return "DES";
    case Family::Ede3: return "TripleDES";
    case Family::Idea: return "IDEA";
    case Family::Xtea: return "XTEA";
    default: return nullptr;
    }
}

std::unique_ptr<Contestant> make_botan_contestant(const Task &task, const Bytes &key, bool with_simd) {
    const char *const name = name_of(task.family);
    if (!name) return nullptr;
    // How much an opener takes at once is settled when it is made.
    let_use_simd(with_simd);
    const auto direction = task.way == Way::Sealing ? Botan::ENCRYPTION : Botan::DECRYPTION;
    return std::make_unique<BotanContestant>(name, direction, key, with_simd);
}

} // namespace foreign
