// DES, triple DES, IDEA and XTEA of Crypto++ as contestants.
#include "contestants.hpp"

#include <cryptopp/des.h>
#include <cryptopp/idea.h>
#include <cryptopp/modes.h>
#include <cryptopp/tea.h>

namespace foreign {

template <class Cipher, class Chain> class CryptoPpContestant : public Contestant {
    const std::size_t key_bytes;
    Cipher cipher;
    Chain chained;

public:
    explicit CryptoPpContestant(const Bytes &key) : key_bytes(key.size()) {
        const std::uint8_t any_start[block_bytes] = {};
        chained.SetKeyWithIV(key.data(), key.size(), any_start);
        cipher.SetKey(key.data(), key.size());
    }

    void chain(const std::uint8_t *start, std::uint8_t *run, std::size_t length) override {
        chained.Resynchronize(start);
        chained.ProcessData(run, run, length);
    }

    void set_keys(Bytes &batch) override {
        for (std::size_t i = 0; i < batch.size(); i += key_bytes) cipher.SetKey(&batch[i], key_bytes);
    }

    void pass_under_each(Bytes &batch, std::uint8_t *block) override {
        for (std::size_t i = 0; i < batch.size(); i += key_bytes) {
            tie(&batch[i], block);
            cipher.SetKey(&batch[i], key_bytes);
            cipher.ProcessBlock(block);
        }
    }

    void pass_again(std::uint8_t *block, std::size_t times) override {
        for (std::size_t i = 0; i < times; i++) cipher.ProcessBlock(block);
    }
};

template <class Algorithm> static std::unique_ptr<Contestant> made(Way way, const Bytes &key) {
    using Mode = CryptoPP::CBC_Mode<Algorithm>;
    if (way == Way::Sealing)
        return std::make_unique<CryptoPpContestant<typename Algorithm::Encryption, typename Mode::Encryption>>(key);
    return std::make_unique<CryptoPpContestant<typename Algorithm::Decryption, typename Mode::Decryption>>(key);
}

std::unique_ptr<Contestant> make_cryptopp_contestant(const Task &task, const Bytes &key) {
    switch (task.family) {
    case Family::Des: return made<CryptoPP::DES>(task.way, key);
    case Family::Ede3: return made<CryptoPP::DES_EDE3>(task.way, key);
    case Family::Idea: return made<CryptoPP::IDEA>(task.way, key);
    case Family::Xtea: return made<CryptoPP::XTEA>(task.way, key);
    default: return nullptr;
    }
}

} // namespace foreign
