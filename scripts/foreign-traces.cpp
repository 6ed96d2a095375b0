// Seals and opens the bodies of traces with Crypto++: its ciphers, its chaining and its padding.
//
// Of each line `seal;description;key;start;plain` or `open;description;key;start;body` on standard input, with hexadecimal
// runs, prints the body or the plain, or `wrong` where Crypto++ finds the padding wrong. Whitening is no cipher of Crypto++:
// it is written here. Crypto++ has IDEA with eight rounds only. Its source is compiled here with each number in that place,
// by including this file once more for each.
//
//     apt-get install g++ dpkg-dev libcrypto++-dev && (cd /tmp && apt-get source libcrypto++)
//     g++ -I/tmp/libcrypto++-8.7.0+git220824 -o /tmp/foreign-traces scripts/foreign-traces.cpp -lcryptopp
#ifdef ASKED

#undef CRYPTOPP_IDEA_H
namespace CryptoPP {
template <unsigned> class JOINED(Rounds, ASKED) : public FixedRounds<ASKED> {};
}
#define FixedRounds JOINED(Rounds, ASKED)
#define IDEA JOINED(IDEA, ASKED)
#define IDEA_Info JOINED(Info, ASKED)
#define IDEA_KEYLEN JOINED(KEYLEN, ASKED)
#define IDEAEncryption JOINED(Encryption, ASKED)
#define IDEADecryption JOINED(Decryption, ASKED)
#define MulInv JOINED(MulInv, ASKED)
#define AddInv JOINED(AddInv, ASKED)
#include "idea.cpp"
static_assert(CryptoPP::IDEA::ROUNDS == ASKED, "Crypto++ takes another number of rounds");
#undef FixedRounds
#undef IDEA
#undef IDEA_Info
#undef IDEA_KEYLEN
#undef IDEAEncryption
#undef IDEADecryption
#undef MulInv
#undef AddInv

#else

#include "pch.h"
#include "misc.h"
#include "seckey.h"

#define JOIN(a, b) a##_##b
#define JOINED(a, b) JOIN(a, b)
#define ASKED 1
#include "foreign-traces.cpp"
#undef ASKED
#define ASKED 2
#include "foreign-traces.cpp"
#undef ASKED
#define ASKED 3
#include "foreign-traces.cpp"
#undef ASKED
#define ASKED 4
#include "foreign-traces.cpp"
#undef ASKED
#define ASKED 5
#include "foreign-traces.cpp"
#undef ASKED
#define ASKED 6
#include "foreign-traces.cpp"
#undef ASKED
#define ASKED 7
#include "foreign-traces.cpp"
#undef ASKED
#define ASKED 8
#include "foreign-traces.cpp"

#include "algparam.h"
#include "argnames.h"
#include "des.h"
#include "filters.h"
#include "modes.h"
#include "tea.h"
#include <iostream>
#include <memory>
#include <sstream>
#include <stdexcept>
#include <string>
#include <vector>

using CryptoPP::byte;
using Bytes = std::string;

struct Stage {
    virtual ~Stage() {}
    virtual void pass(byte *block, bool opening) const = 0;
};

// A block cipher of Crypto++, under its key.
template <class Cipher> struct Ciphered : Stage {
    typename Cipher::Encryption sealer;
    typename Cipher::Decryption opener;

    Ciphered(const Bytes &key, int rounds = 0) {
        const byte *bytes = reinterpret_cast<const byte *>(key.data());
        if (rounds) {
            auto parameters = CryptoPP::MakeParameters(CryptoPP::Name::Rounds(), rounds);
            sealer.SetKey(bytes, key.size(), parameters);
            opener.SetKey(bytes, key.size(), parameters);
        } else {
            sealer.SetKey(bytes, key.size());
            opener.SetKey(bytes, key.size());
        }
    }

    void pass(byte *block, bool opening) const override {
        if (opening)
            opener.ProcessBlock(block);
        else
            sealer.ProcessBlock(block);
    }
};

struct Xored : Stage {
    Bytes key;
    Xored(const Bytes &key) : key(key) {}
    void pass(byte *block, bool) const override {
        for (int i = 0; i < 8; i++) block[i] ^= byte(key[i]);
    }
};

// Of each half, least byte first, with what is carried from byte to byte.
struct Added : Stage {
    Bytes key;
    Added(const Bytes &key) : key(key) {}
    void pass(byte *block, bool opening) const override {
        for (int half = 0; half < 8; half += 4) {
            int carry = 0;
            for (int i = half + 3; i >= half; i--) {
                const int k = byte(key[i]);
                const int sum = block[i] + carry + (opening ? -k : k);
                block[i] = byte(sum & 0xFF);
                carry = sum >> 8;
            }
        }
    }
};

static size_t key_bytes(const std::string &name) {
    if (name == "ede3") return 24;
    return name == "ede2" || name == "idea" || name == "xtea" ? 16 : 8;
}

static Stage *idea(int rounds, const Bytes &key) {
    switch (rounds) {
    case 1: return new Ciphered<CryptoPP::IDEA_1>(key);
    case 2: return new Ciphered<CryptoPP::IDEA_2>(key);
    case 3: return new Ciphered<CryptoPP::IDEA_3>(key);
    case 4: return new Ciphered<CryptoPP::IDEA_4>(key);
    case 5: return new Ciphered<CryptoPP::IDEA_5>(key);
    case 6: return new Ciphered<CryptoPP::IDEA_6>(key);
    case 7: return new Ciphered<CryptoPP::IDEA_7>(key);
    default: return new Ciphered<CryptoPP::IDEA_8>(key);
    }
}

static Stage *stage(const std::string &name, int count, const Bytes &key) {
    if (name == "des") return new Ciphered<CryptoPP::DES>(key);
    if (name == "ede2") return new Ciphered<CryptoPP::DES_EDE2>(key);
    if (name == "ede3") return new Ciphered<CryptoPP::DES_EDE3>(key);
    if (name == "xtea") return new Ciphered<CryptoPP::XTEA>(key, count ? count : 32);
    if (name == "wxor") return new Xored(key);
    if (name == "wadd") return new Added(key);
    if (name == "idea") return idea(count ? count : 8, key);
    throw std::invalid_argument(name);
}

// A pile, in the form in which Crypto++ chains ciphers.
class Pile : public CryptoPP::BlockCipher {
    std::vector<std::unique_ptr<Stage>> stages;
    bool opening;

public:
    Pile(const std::string &description, Bytes key, bool opening) : opening(opening) {
        std::istringstream words(description);
        for (std::string word; words >> word;) {
            const size_t colon = word.find(':');
            const std::string name = word.substr(0, colon);
            const int count = colon == std::string::npos ? 0 : std::stoi(word.substr(colon + 1));
            stages.emplace_back(stage(name, count, key.substr(0, key_bytes(name))));
            key = key.substr(key_bytes(name));
        }
    }

    void ProcessAndXorBlock(const byte *in, const byte *with, byte *out) const override {
        byte block[8];
        std::copy(in, in + 8, block);
        for (size_t i = 0; i < stages.size(); i++) stages[opening ? stages.size() - 1 - i : i]->pass(block, opening);
        for (int i = 0; i < 8; i++) out[i] = block[i] ^ (with ? with[i] : 0);
    }

    unsigned int BlockSize() const override { return 8; }
    bool IsForwardTransformation() const override { return !opening; }
    size_t MinKeyLength() const override { return 0; }
    size_t MaxKeyLength() const override { return 96; }
    size_t DefaultKeyLength() const override { return 0; }
    size_t GetValidKeyLength(size_t length) const override { return length; }
    IV_Requirement IVRequirement() const override { return NOT_RESYNCHRONIZABLE; }
    const CryptoPP::Algorithm &GetAlgorithm() const override { return *this; }

protected:
    void UncheckedSetKey(const byte *, unsigned int, const CryptoPP::NameValuePairs &) override {}
};

static Bytes bytes(const std::string &digits) {
    Bytes out;
    for (size_t i = 0; i < digits.size(); i += 2) out += char(std::stoi(digits.substr(i, 2), nullptr, 16));
    return out;
}

static std::string digits(const Bytes &run) {
    static const char of[] = "0123456789ABCDEF";
    std::string out;
    for (byte b : run) (out += of[b >> 4]) += of[b & 15];
    return out;
}

static Bytes passed(CryptoPP::StreamTransformation &chaining, const Bytes &run) {
    Bytes out;
    CryptoPP::StringSource(run, true, new CryptoPP::StreamTransformationFilter(
        chaining, new CryptoPP::StringSink(out), CryptoPP::BlockPaddingSchemeDef::PKCS_PADDING));
    return out;
}

int main() {
    for (std::string line; std::getline(std::cin, line);) {
        std::vector<std::string> field;
        std::istringstream fields(line + ";");
        for (std::string f; std::getline(fields, f, ';');) field.push_back(f);
        const bool opening = field[0] == "open";
        const Bytes start = bytes(field[3]), run = bytes(field[4]);
        const byte *first = reinterpret_cast<const byte *>(start.data());
        try {
            Pile pile(field[1], bytes(field[2]), opening);
            if (opening) {
                CryptoPP::CBC_Mode_ExternalCipher::Decryption chaining(pile, first);
                std::cout << digits(passed(chaining, run)) << "\n";
            } else {
                CryptoPP::CBC_Mode_ExternalCipher::Encryption chaining(pile, first);
                std::cout << digits(passed(chaining, run)) << "\n";
            }
        } catch (const CryptoPP::InvalidCiphertext &) {
            std::cout << "wrong\n";
        }
    }
}

#endif
