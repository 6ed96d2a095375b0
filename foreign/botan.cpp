// DES, triple DES, IDEA and XTEA of Botan.
#include "ciphers.hpp"

#include <algorithm>
#include <botan/block_cipher.h>
#include <botan/cipher_mode.h>
#include <botan/version.h>
#include <stdexcept>

namespace foreign {

class BotanCipher : public Cipher {
    std::unique_ptr<Botan::BlockCipher> cipher;
    std::unique_ptr<Botan::Cipher_Mode> chain_sealer, chain_opener;

public:
    BotanCipher(const std::string &name, const Bytes &key)
        : cipher(Botan::BlockCipher::create_or_throw(name)),
          chain_sealer(Botan::Cipher_Mode::create_or_throw(name + "/CBC/NoPadding", Botan::ENCRYPTION)),
          chain_opener(Botan::Cipher_Mode::create_or_throw(name + "/CBC/NoPadding", Botan::DECRYPTION)) {
        cipher->set_key(key.data(), key.size());
        chain_sealer->set_key(key.data(), key.size());
        chain_opener->set_key(key.data(), key.size());
    }

    void pass(Way way, std::uint8_t *block) override {
        if (way == Way::Sealing) cipher->encrypt(block);
        else cipher->decrypt(block);
    }

    void chain(Way way, const std::uint8_t *start, std::uint8_t *run, std::size_t length) override {
        Botan::Cipher_Mode &mode = way == Way::Sealing ? *chain_sealer : *chain_opener;
        Botan::secure_vector<std::uint8_t> passed(run, run + length);
        mode.start(start, block_bytes);
        mode.finish(passed);
        std::copy(passed.begin(), passed.end(), run);
    }
};

// Triple DES has two keys or three by the length of what it is given.
static const char *name_of(Family family) {
    switch (family) {
    case Family::Des: return "DES";
    case Family::Ede2:
    case Family::Ede3: return "TripleDES";
    case Family::Idea: return "IDEA";
    case Family::Xtea: return "XTEA";
    default: throw std::invalid_argument("Botan has no whitening");
    }
}

std::unique_ptr<Cipher> make_botan(const Stage &stage, const Bytes &key) {
    return std::make_unique<BotanCipher>(name_of(stage.family), key);
}

std::string botan_version() { return "Botan " + Botan::short_version_string(); }

} // namespace foreign
