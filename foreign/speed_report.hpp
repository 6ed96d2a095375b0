// What was measured, as Markdown.
#pragma once

#include "contest.hpp"

namespace foreign {

using Contests = std::vector<Contest>;

void print_report(const Contests &contests);

} // namespace foreign
