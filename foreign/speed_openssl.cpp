// DES and triple DES of OpenSSL as contestants, by the calls that its providers rest on: nothing stands between these and the
// cipher. It has no XTEA, and Debian's package leaves IDEA out.
#define OPENSSL_SUPPRESS_DEPRECATED
#include "contestants.hpp"

#include <openssl/des.h>

namespace foreign {

template <std::size_t stages> class OpenSslContestant : public Contestant {
    static_assert(stages == 1 || stages == 3);

    struct Schedules {
        DES_key_schedule of[stages];

        void set(const std::uint8_t *key) {
            for (auto &schedule : of) {
                DES_set_key_unchecked(reinterpret_cast<const_DES_cblock *>(const_cast<std::uint8_t *>(key)), &schedule);
                key += DES_KEY_SZ;
            }
        }
    };

    const int direction;
    Schedules lasting, passing;

    void pass(Schedules &under, std::uint8_t *block) const {
        auto *const text = reinterpret_cast<DES_cblock *>(block);
        auto &of = under.of;
        if constexpr (stages == 1) DES_ecb_encrypt(text, text, &of[0], direction);
        else DES_ecb3_encrypt(text, text, &of[0], &of[1], &of[2], direction);
    }

public:
    OpenSslContestant(Way way, const Bytes &key) : direction(way == Way::Sealing ? DES_ENCRYPT : DES_DECRYPT) {
        lasting.set(key.data());
    }

    void chain(const std::uint8_t *start, std::uint8_t *run, std::size_t length) override {
        DES_cblock chained;
        std::copy(start, start + block_bytes, chained);
        auto &of = lasting.of;
        if constexpr (stages == 1) DES_ncbc_encrypt(run, run, static_cast<long>(length), &of[0], &chained, direction);
        else DES_ede3_cbc_encrypt(run, run, static_cast<long>(length), &of[0], &of[1], &of[2], &chained, direction);
    }

    void set_keys(Bytes &batch) override {
        for (std::size_t i = 0; i < batch.size(); i += stages * DES_KEY_SZ) passing.set(&batch[i]);
    }

    void pass_under_each(Bytes &batch, std::uint8_t *block) override {
        for (std::size_t i = 0; i < batch.size(); i += stages * DES_KEY_SZ) {
            tie(&batch[i], block);
            passing.set(&batch[i]);
            pass(passing, block);
        }
    }

    void pass_again(std::uint8_t *block, std::size_t times) override {
        for (std::size_t i = 0; i < times; i++) pass(lasting, block);
    }
};

std::unique_ptr<Contestant> make_openssl_contestant(const Task &task, const Bytes &key) {
    switch (task.family) {
    case Family::Des: return std::make_unique<OpenSslContestant<1>>(task.way, key);
    case Family::Ede3: return std::make_unique<OpenSslContestant<3>>(task.way, key);
    default: return nullptr;
    }
}

} // namespace foreign
