// DES and triple DES of OpenSSL. Single DES needs its legacy provider.
#include "ciphers.hpp"

#include <openssl/crypto.h>
#include <openssl/evp.h>
#include <openssl/provider.h>
#include <stdexcept>

namespace foreign {

static void demand(bool done, const char *what) {
    if (!done) throw std::runtime_error(std::string("OpenSSL: ") + what);
}

struct Free {
    void operator()(OSSL_PROVIDER *provider) const { OSSL_PROVIDER_unload(provider); }
    void operator()(EVP_CIPHER *cipher) const { EVP_CIPHER_free(cipher); }
    void operator()(EVP_CIPHER_CTX *context) const { EVP_CIPHER_CTX_free(context); }
};

using Provider = std::unique_ptr<OSSL_PROVIDER, Free>;
using Context = std::unique_ptr<EVP_CIPHER_CTX, Free>;

// Both modes of one cipher.
struct Modes {
    std::unique_ptr<EVP_CIPHER, Free> blocks, chained;

    Modes(const char *in_blocks, const char *in_chains)
        : blocks(EVP_CIPHER_fetch(nullptr, in_blocks, nullptr)), chained(EVP_CIPHER_fetch(nullptr, in_chains, nullptr)) {
        demand(blocks && chained, in_chains);
    }
};

static const Modes &modes_of(Family family) {
    static const Provider plain(OSSL_PROVIDER_load(nullptr, "default")), legacy(OSSL_PROVIDER_load(nullptr, "legacy"));
    demand(plain && legacy, "the legacy provider cannot be loaded");
    static const Modes des("DES-ECB", "DES-CBC"), ede2("DES-EDE-ECB", "DES-EDE-CBC"), ede3("DES-EDE3-ECB", "DES-EDE3-CBC");
    switch (family) {
    case Family::Des: return des;
    case Family::Ede2: return ede2;
    case Family::Ede3: return ede3;
    default: throw std::invalid_argument("OpenSSL is asked for DES and triple DES alone");
    }
}

static Context made(const EVP_CIPHER *cipher, Way way, const Bytes &key) {
    Context context(EVP_CIPHER_CTX_new());
    demand(EVP_CipherInit_ex2(context.get(), cipher, key.data(), nullptr, way == Way::Sealing, nullptr), "a key is refused");
    EVP_CIPHER_CTX_set_padding(context.get(), 0);
    return context;
}

static void rewrite(const Context &context, std::uint8_t *run, std::size_t length) {
    int written = 0;
    const bool done = EVP_CipherUpdate(context.get(), run, &written, run, static_cast<int>(length));
    demand(done && written == static_cast<int>(length), "a run is refused");
}

class OpenSslCipher : public Cipher {
    const Context sealer, opener, chain_sealer, chain_opener;

public:
    OpenSslCipher(const Modes &modes, const Bytes &key)
        : sealer(made(modes.blocks.get(), Way::Sealing, key)), opener(made(modes.blocks.get(), Way::Opening, key)),
          chain_sealer(made(modes.chained.get(), Way::Sealing, key)),
          chain_opener(made(modes.chained.get(), Way::Opening, key)) {}

    void pass(Way way, std::uint8_t *block) override { rewrite(way == Way::Sealing ? sealer : opener, block, block_bytes); }

    void chain(Way way, const std::uint8_t *start, std::uint8_t *run, std::size_t length) override {
        const Context &context = way == Way::Sealing ? chain_sealer : chain_opener;
        demand(EVP_CipherInit_ex2(context.get(), nullptr, nullptr, start, -1, nullptr), "a start is refused");
        rewrite(context, run, length);
    }
};

std::unique_ptr<Cipher> make_openssl(const Stage &stage, const Bytes &key) {
    return std::make_unique<OpenSslCipher>(modes_of(stage.family), key);
}

std::string openssl_version() { return OpenSSL_version(OPENSSL_VERSION); }

} // namespace foreign
