// The library's side of a case: its call, made on memory that shows whatever else it touches.
#pragma once

#include "cases.hpp"

namespace foreign {

// What a call answered, and everything that it was given as it is afterwards.
struct Outcome {
    Reply reply;
    Bytes description, key, start, given, room;
    bool surroundings_kept = true;
};

// Memory between two pages that nothing can touch. What is put in it begins or ends at one of them, so that a byte read or
// written too far stops the program; all the rest is filled with one value.
class Region {
    std::size_t capacity;
    std::uint8_t *base;
    std::uint8_t *first = nullptr;
    std::size_t length = 0;
    std::uint8_t filling = 0;

public:
    explicit Region(std::size_t least_capacity);
    ~Region();
    Region(const Region &) = delete;
    Region &operator=(const Region &) = delete;

    void put(const Bytes &bytes, bool at_end, std::uint8_t fill_with);
    void let_write(bool allowed);
    bool surroundings_kept() const;

    std::uint8_t *data() const { return first; }
    std::size_t size() const { return length; }
    Bytes bytes() const { return Bytes(first, first + length); }

    // For the self-test: flip a bit of what was put, or of what surrounds it.
    void spoil(bool inside);
};

// The library, called on five such regions. What it may only read it cannot write to. Where it touches what it must not, the
// program names the case and ends with status 1.
class Library {
    Region description, key, start, given, room;

    Reply call(const Case &asked);
    void spoil(Reply &reply, std::uint64_t which);

public:
    Library();

    static constexpr std::uint64_t not_spoiled = ~std::uint64_t(0);

    // For the self-test, `spoiling` chooses which part of what was answered and left is changed afterwards.
    Outcome outcome(const Case &asked, std::uint64_t spoiling = not_spoiled);
};

} // namespace foreign
