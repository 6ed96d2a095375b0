// Random cases: calls of the library with everything that they are given. A case is made of a seed and its number alone.
#pragma once

#include "reference.hpp"

namespace foreign {

enum class Call { Seal, Open, CloseTrace, OpenTrace };

constexpr const char *call_names[] = {"seal a run", "open a run", "close a trace", "open a file"};
constexpr std::size_t calls = std::size(call_names);

// What the description names. The last has descriptions of every kind, most of them refused.
enum class Row { Des, Ede2, Ede3, Idea, IdeaOfFewer, Xtea, XteaOfFewer, Wxor, Wadd, TwoStages, ThreeStages, FourStages, Any };

constexpr const char *row_names[] = {
    "des",  "ede2", "ede3",        "idea",          "idea:1 to idea:7", "xtea",           "xtea:1 to xtea:31",
    "wxor", "wadd", "pile of two", "pile of three", "pile of four",     "any description"};
constexpr std::size_t rows = std::size(row_names);

// What was done to a file before it is opened.
enum class Damage { None, Header, Start, Body, LastBlock, Cut, Extended, FormOrSpare, Padding, OtherKey, NoFile };

constexpr const char *damage_names[] = {
    "as it was closed",
    "a bit of the header",
    "a bit of the start",
    "a bit of the body",
    "a bit of the last block",
    "cut",
    "extended",
    "form or spare bits",
    "padding of other bytes",
    "another key",
    "random bytes",
};
constexpr std::size_t damages = std::size(damage_names);

// No call is given more bytes than this in one place.
constexpr std::size_t most_bytes = 40960;

struct Case {
    std::uint64_t number = 0;
    Call call = Call::Seal;
    Row row = Row::Des;
    Damage damage = Damage::None;
    Label label; // to close
    Bytes description;
    Bytes key;
    Bytes start; // none to open a file
    Bytes given; // the plain that is closed, or the file that is opened
    Bytes room;  // the run, or the output
};

Case make_case(std::uint64_t seed, std::uint64_t number);

} // namespace foreign
