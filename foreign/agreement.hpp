// Whether the sources of a cipher agree among themselves, before anything is compared with them.
#pragma once

#include <cstdint>

namespace foreign {

// Tries thousands of keys of each cipher that two sources have, the second reading of IDEA with eight rounds among them, and
// prints a line for each. False where two of them differ.
bool sources_agree(std::uint64_t seed);

} // namespace foreign
