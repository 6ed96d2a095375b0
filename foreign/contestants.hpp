// Who takes part when speeds are compared: one cipher of one implementation, going one way.
#pragma once

#include "ciphers.hpp"

#include <algorithm>

namespace foreign {

// Makes a part of a block the beginning of a key. So a processor cannot set up the key before the block is there. It is four
// bytes, as the ciphers write them, so that no write waits for two others.
inline void tie(std::uint8_t *key, const std::uint8_t *block) { std::copy_n(block, 4, key); }

class Contestant {
public:
    virtual ~Contestant() = default;

    // Called before each turn, outside the time that is taken.
    virtual void prepare() {}

    // Cipher block chaining of whole blocks in place, under the key that the contestant was made with.
    virtual void chain(const std::uint8_t *start, std::uint8_t *run, std::size_t length) = 0;

    // Sets up every key of a batch, which is the keys' bytes without gaps, and may change these bytes.
    virtual void set_keys(Bytes &batch) = 0;

    // Passes a block in place under each key of a batch in turn, and sets that key up for it. Each key is tied to the block as it
    // is then.
    virtual void pass_under_each(Bytes &batch, std::uint8_t *block) = 0;

    // Passes a block in place so many times under one key, which was set up before.
    virtual void pass_again(std::uint8_t *block, std::size_t times) = 0;
};

// Botan stands here twice. On processors with SSE2 its IDEA takes eight blocks at once where they do not wait for each other,
// as when a run is opened. All other ciphers of these three packages, that one without SSE2 among them, do their work in
// general registers.
enum class Entrant { Library, OpenSsl, CryptoPp, Botan, BotanWithoutSimd };

constexpr const char *entrant_names[] = {"ours", "OpenSSL", "Crypto++", "Botan", "Botan without SIMD"};
constexpr std::size_t entrants = std::size(entrant_names);

// A family with its full count, and a way.
struct Task {
    Family family;
    Way way;
};

// Each gives nothing where the entrant has no such cipher.
std::unique_ptr<Contestant> make_contestant(Entrant entrant, const Task &task, const Bytes &key);
std::unique_ptr<Contestant> make_library_contestant(const Task &task, const Bytes &key);
std::unique_ptr<Contestant> make_openssl_contestant(const Task &task, const Bytes &key);
std::unique_ptr<Contestant> make_cryptopp_contestant(const Task &task, const Bytes &key);
std::unique_ptr<Contestant> make_botan_contestant(const Task &task, const Bytes &key, bool with_simd);

} // namespace foreign
