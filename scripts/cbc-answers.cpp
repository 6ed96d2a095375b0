// Known answers of XTEA in CBC, made with Crypto++: prints lines `key;start;plain;sealed` in hexadecimal.
//
//     apt-get install g++ libcrypto++-dev
//     g++ -o /tmp/cbc-answers scripts/cbc-answers.cpp -lcryptopp && /tmp/cbc-answers > scripts/cbc-answers.txt
#include <cryptopp/modes.h>
#include <cryptopp/tea.h>
#include <cstdio>
#include <vector>

using Bytes = std::vector<CryptoPP::byte>;

static Bytes counted(size_t count, unsigned first, unsigned step) {
    Bytes bytes(count);
    for (size_t i = 0; i < count; i++) bytes[i] = CryptoPP::byte(first + step * i);
    return bytes;
}

static void print(const Bytes &bytes, char end) {
    for (auto byte : bytes) std::printf("%02X", byte);
    std::putchar(end);
}

static void answer(const Bytes &key, const Bytes &start, const Bytes &plain) {
    Bytes sealed(plain.size());
    CryptoPP::CBC_Mode<CryptoPP::XTEA>::Encryption cbc(key.data(), key.size(), start.data());
    cbc.ProcessData(sealed.data(), plain.data(), plain.size());
    print(key, ';');
    print(start, ';');
    print(plain, ';');
    print(sealed, '\n');
}

int main() {
    answer(counted(16, 0, 0), counted(8, 0, 0), counted(8, 0, 0));
    answer(counted(16, 0, 1), counted(8, 0x10, 1), counted(16, 0x41, 0));
    answer(counted(16, 0xFF, 0), counted(8, 0xFF, 0), counted(24, 0xFF, 0));
    answer(counted(16, 0x27, 0x1F), counted(8, 0xC8, 0x0B), counted(40, 0x05, 0x2D));
    answer(counted(16, 0xE3, 0x35), counted(8, 0x5A, 0x77), counted(64, 0x11, 0x83));
    answer(counted(16, 0x80, 0x0D), counted(8, 0x01, 0x00), counted(128, 0xFE, 0x3B));
}
