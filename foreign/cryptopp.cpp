// DES, triple DES, IDEA and XTEA of Crypto++. Its XTEA takes any number of cycles, which it calls rounds.
#include "ciphers.hpp"

#include <cryptopp/algparam.h>
#include <cryptopp/argnames.h>
#include <cryptopp/des.h>
#include <cryptopp/idea.h>
#include <cryptopp/modes.h>
#include <cryptopp/tea.h>
#include <stdexcept>

namespace foreign {

template <class Algorithm> class CryptoPpCipher : public Cipher {
    typename Algorithm::Encryption sealer;
    typename Algorithm::Decryption opener;

public:
    CryptoPpCipher(const Bytes &key, const CryptoPP::NameValuePairs &parameters) {
        sealer.SetKey(key.data(), key.size(), parameters);
        opener.SetKey(key.data(), key.size(), parameters);
    }

    void pass(Way way, std::uint8_t *block) override {
        if (way == Way::Sealing) sealer.ProcessBlock(block);
        else opener.ProcessBlock(block);
    }

    void chain(Way way, const std::uint8_t *start, std::uint8_t *run, std::size_t length) override {
        if (way == Way::Sealing) CryptoPP::CBC_Mode_ExternalCipher::Encryption(sealer, start).ProcessData(run, run, length);
        else CryptoPP::CBC_Mode_ExternalCipher::Decryption(opener, start).ProcessData(run, run, length);
    }
};

template <class Algorithm> static std::unique_ptr<Cipher>
made(const Bytes &key, const CryptoPP::NameValuePairs &parameters = CryptoPP::g_nullNameValuePairs) {
    return std::make_unique<CryptoPpCipher<Algorithm>>(key, parameters);
}

std::unique_ptr<Cipher> make_cryptopp(const Stage &stage, const Bytes &key) {
    switch (stage.family) {
    case Family::Des: return made<CryptoPP::DES>(key);
    case Family::Ede2: return made<CryptoPP::DES_EDE2>(key);
    case Family::Ede3: return made<CryptoPP::DES_EDE3>(key);
    case Family::Idea: return made<CryptoPP::IDEA>(key);
    case Family::Xtea:
        return made<CryptoPP::XTEA>(key, CryptoPP::MakeParameters(CryptoPP::Name::Rounds(), static_cast<int>(stage.count)));
    default: throw std::invalid_argument("Crypto++ has no whitening");
    }
}

std::string cryptopp_version() {
    const int version = CryptoPP::LibraryVersion();
    return "Crypto++ " + std::to_string(version / 100) + "." + std::to_string(version / 10 % 10) + "." +
           std::to_string(version % 10);
}

} // namespace foreign
