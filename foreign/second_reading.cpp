// What no foreign library has, written from the published definitions alone: whitening (docs/CIPHERS.md), and IDEA with any
// number of rounds (chapter 7 of the Handbook of Applied Cryptography, whose eight is taken as n). With eight rounds, the
// latter can be held against Crypto++ and Botan.
#include "ciphers.hpp"

#include <stdexcept>
#include <utility>

namespace foreign {

// The two bytes or four that begin at `bytes`, most significant first.
template <class Word> static Word read_word(const std::uint8_t *bytes) {
    Word word = 0;
    for (std::size_t i = 0; i < sizeof(Word); i++) word = static_cast<Word>(word << 8 | bytes[i]);
    return word;
}

template <class Word> static void write_word(std::uint8_t *bytes, Word word) {
    for (std::size_t i = 0; i < sizeof(Word); i++) bytes[i] = static_cast<std::uint8_t>(word >> 8 * (sizeof(Word) - 1 - i));
}

class XorWhitening : public Cipher {
    const Bytes key;

public:
    explicit XorWhitening(Bytes key) : key(std::move(key)) {}

    void pass(Way, std::uint8_t *block) override {
        for (std::size_t i = 0; i < block_bytes; i++) block[i] ^= key[i];
    }
};

class SumWhitening : public Cipher {
    const Bytes key;

public:
    explicit SumWhitening(Bytes key) : key(std::move(key)) {}

    void pass(Way way, std::uint8_t *block) override {
        for (std::size_t half = 0; half < block_bytes; half += 4) {
            const auto added = read_word<std::uint32_t>(&key[half]);
            const auto word = read_word<std::uint32_t>(block + half);
            write_word<std::uint32_t>(block + half, way == Way::Sealing ? word + added : word - added);
        }
    }
};

class Idea : public Cipher {
    using Word = std::uint16_t;

    static constexpr unsigned key_bits = 128, words_in_round = 6;

    const unsigned rounds;
    std::vector<Word> sealing, opening;

    // The product modulo 65,537, where 0 stands for 65,536.
    static Word product(Word a, Word b) {
        const std::uint64_t factor = a ? a : 65536, other = b ? b : 65536;
        return static_cast<Word>(factor * other % 65537);
    }

    static Word inverse(Word a) {
        Word power = 1;
        for (unsigned i = 0; i < 16; i++) {
            power = product(power, a);
            a = product(a, a);
        }
        return power;
    }

    static Word negative(Word a) { return static_cast<Word>(-a); }

    // Eight words of the key, and then eight of the key rotated to the left by 25 bits, and so on.
    static Word key_word(const Bytes &key, unsigned number) {
        const unsigned first = number / 8 * 25 + number % 8 * 16;
        unsigned word = 0;
        for (unsigned bit = first; bit < first + 16; bit++) word = word << 1 | (key[bit % key_bits / 8] >> (7 - bit % 8) & 1);
        return static_cast<Word>(word);
    }

    // Of round r, from 0, the first four are the inverses of round n - r, which for r = 0 are the closing words. The middle
    // two change places but in the first and in the closing words. The last two are those of round n - 1 - r.
    std::vector<Word> turned() const {
        std::vector<Word> words;
        for (unsigned r = 0; r <= rounds; r++) {
            const Word *from = &sealing[words_in_round * (rounds - r)];
            const bool outermost = r == 0 || r == rounds;
            words.push_back(inverse(from[0]));
            words.push_back(negative(from[outermost ? 1 : 2]));
            words.push_back(negative(from[outermost ? 2 : 1]));
            words.push_back(inverse(from[3]));
            if (r == rounds) break;
            words.push_back(from[-2]);
            words.push_back(from[-1]);
        }
        return words;
    }

    static void join(Word *x, const Word *key) {
        x[0] = product(x[0], key[0]);
        x[1] = static_cast<Word>(x[1] + key[1]);
        x[2] = static_cast<Word>(x[2] + key[2]);
        x[3] = product(x[3], key[3]);
    }

    static void pass_round(Word *x, const Word *key) {
        join(x, key);
        const Word t0 = product(x[0] ^ x[2], key[4]);
        const Word t1 = product(static_cast<Word>((x[1] ^ x[3]) + t0), key[5]);
        const Word t2 = static_cast<Word>(t0 + t1);
        x[0] ^= t1;
        x[2] ^= t1;
        x[1] ^= t2;
        x[3] ^= t2;
        std::swap(x[1], x[2]);
    }

public:
    Idea(unsigned rounds, const Bytes &key) : rounds(rounds) {
        for (unsigned i = 0; i < words_in_round * rounds + 4; i++) sealing.push_back(key_word(key, i));
        opening = turned();
    }

    void pass(Way way, std::uint8_t *block) override {
        const std::vector<Word> &key = way == Way::Sealing ? sealing : opening;
        Word x[4];
        for (unsigned i = 0; i < 4; i++) x[i] = read_word<Word>(block + 2 * i);
        for (unsigned r = 0; r < rounds; r++) pass_round(x, &key[words_in_round * r]);
        std::swap(x[1], x[2]);
        join(x, &key[words_in_round * rounds]);
        for (unsigned i = 0; i < 4; i++) write_word<Word>(block + 2 * i, x[i]);
    }
};

std::unique_ptr<Cipher> make_here(const Stage &stage, const Bytes &key) {
    switch (stage.family) {
    case Family::Wxor: return std::make_unique<XorWhitening>(key);
    case Family::Wadd: return std::make_unique<SumWhitening>(key);
    case Family::Idea: return std::make_unique<Idea>(stage.count, key);
    default: throw std::invalid_argument("the libraries have this cipher");
    }
}

} // namespace foreign
