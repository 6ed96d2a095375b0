// Compares each call of libjinthoral.a with a reference side that shares nothing with it, on random cases.
//
//     compare [COUNT [SEED]] [--case NUMBER] [--spoil]
//
// The numbers are decimal. It ends with status 0 where every case agrees, and each kind of case was met if there are many.
// --case makes one case alone and prints it in full. --spoil changes the library's answer in case 500 and in each 1,001st
// after it, in another part each time, and so ends with status 1 where it comes so far. scripts/compare-foreign.sh builds and
// runs it.
#include "agreement.hpp"
#include "library.hpp"
#include "tally.hpp"

#include <cstdio>
#include <cstdlib>
#include <optional>
#include <stdexcept>
#include <string>

using namespace foreign;

// From so many cases on, each kind of case must have been met.
constexpr std::uint64_t many_cases = 20000;
// An odd number, so that no call is passed over.
constexpr std::uint64_t cases_for_one_spoiled = 1001;
constexpr std::size_t differing_shown = 5, bytes_shown = 256;

struct Options {
    std::uint64_t count = 60000, seed = 1;
    std::optional<std::uint64_t> only;
    bool spoil = false;
};

static std::uint64_t number_in(const std::string &text) {
    if (text.empty() || text.size() > 18 || text.find_first_not_of("0123456789") != std::string::npos)
        throw std::invalid_argument(text);
    return std::stoull(text);
}

static Options options_in(int count, char **arguments) {
    Options options;
    std::uint64_t *const numbers[] = {&options.count, &options.seed};
    std::size_t numbers_read = 0;
    for (int i = 1; i < count; i++) {
        const std::string argument = arguments[i];
        if (argument == "--spoil") options.spoil = true;
        else if (argument == "--case" && i + 1 < count) options.only = number_in(arguments[++i]);
        else if (numbers_read < std::size(numbers)) *numbers[numbers_read++] = number_in(argument);
        else throw std::invalid_argument(argument);
    }
    return options;
}

static Outcome expected_of(const Case &asked) {
    Outcome expected;
    expected.description = asked.description;
    expected.key = asked.key;
    expected.start = asked.start;
    expected.given = asked.given;
    expected.room = asked.room;
    switch (asked.call) {
    case Call::CloseTrace:
        expected.reply =
            close_trace(asked.description, expected.key, asked.label, asked.start, asked.given, expected.room, asked.number);
        break;
    case Call::OpenTrace:
        expected.reply = open_trace(asked.description, expected.key, asked.given, expected.room, asked.number);
        break;
    default: {
        const Way way = asked.call == Call::Seal ? Way::Sealing : Way::Opening;
        expected.reply = pass_run(asked.description, expected.key, way, asked.start, expected.room, asked.number);
    }
    }
    return expected;
}

static bool same(const Label &a, const Label &b) { return a.axis == b.axis && a.serial == b.serial && a.number == b.number; }

static std::string differing_parts(const Outcome &expected, const Outcome &got) {
    std::string parts;
    const auto compare = [&](bool alike, const char *part) {
        if (!alike) parts += std::string(parts.empty() ? "" : ", ") + part;
    };
    compare(expected.reply.refusal == got.reply.refusal, "refusal");
    compare(expected.reply.place == got.reply.place, "place");
    compare(expected.reply.length == got.reply.length, "length");
    compare(same(expected.reply.label, got.reply.label), "label");
    compare(expected.description == got.description, "description");
    compare(expected.key == got.key, "key");
    compare(expected.start == got.start, "start");
    compare(expected.given == got.given, "plain or file");
    compare(expected.room == got.room, "run or output");
    compare(got.surroundings_kept, "bytes beside what was given");
    return parts;
}

// Whether the reference side opens a file that the library closed to the label and the plain that were closed.
static bool opens_again(const Case &asked, const Outcome &got) {
    Bytes key = asked.key, output(asked.given.size());
    const Bytes file(got.room.begin(), got.room.begin() + static_cast<std::ptrdiff_t>(got.reply.length));
    const Reply opened = open_trace(asked.description, key, file, output, asked.number + 1);
    return opened.refusal == 0 && same(opened.label, asked.label) && opened.length == asked.given.size() &&
           output == asked.given;
}

static void print_bytes(const char *what, const Bytes &bytes, bool in_full) {
    std::printf("  %-22s %zu bytes ", what, bytes.size());
    const bool cut = !in_full && bytes.size() > bytes_shown;
    for (std::size_t i = 0; i < (cut ? bytes_shown : bytes.size()); i++) std::printf("%02X", bytes[i]);
    std::printf(cut ? "..\n" : "\n");
}

static void print_outcome(const char *whose, const Outcome &outcome, bool in_full) {
    const Reply &reply = outcome.reply;
    std::printf("  %s: refusal %zu at %zu, length %zu, label %u %u %u\n", whose, std::size_t(reply.refusal), reply.place,
                reply.length, reply.label.axis, reply.label.serial, reply.label.number);
    print_bytes("  key left", outcome.key, in_full);
    print_bytes("  run or output left", outcome.room, in_full);
}

static void print_case(const Case &asked, std::uint64_t seed, bool in_full) {
    std::printf("case %zu of seed %zu: %s, %s, label %u %u %u\n", std::size_t(asked.number), std::size_t(seed),
                call_names[std::size_t(asked.call)], row_names[std::size_t(asked.row)], asked.label.axis, asked.label.serial,
                asked.label.number);
    print_bytes("description", asked.description, in_full);
    print_bytes("key", asked.key, in_full);
    print_bytes("start", asked.start, in_full);
    print_bytes("plain or file", asked.given, in_full);
    print_bytes("run or output", asked.room, in_full);
}

class Comparison {
    const Options options;
    Library library;
    Tally tally;

    std::uint64_t spoiling_of(std::uint64_t number) {
        if (!options.spoil || number % cases_for_one_spoiled != cases_for_one_spoiled / 2) return Library::not_spoiled;
        tally.spoiled++;
        return number / cases_for_one_spoiled;
    }

    // What differs between both sides; nothing where they agree.
    std::string differing_between(const Case &asked, const Outcome &expected, const Outcome &got) {
        std::string parts = differing_parts(expected, got);
        if (parts.empty() && asked.call == Call::CloseTrace && got.reply.refusal == 0) {
            if (!opens_again(asked, got)) parts = "what the reference side opens the library's file to";
            tally.reopened++;
        }
        return parts;
    }

public:
    explicit Comparison(const Options &options) : options(options) {}

    void compare(std::uint64_t number) {
        const Case asked = make_case(options.seed, number);
        const bool in_full = options.only.has_value();
        if (in_full) print_case(asked, options.seed, in_full);
        const Outcome expected = expected_of(asked), got = library.outcome(asked, spoiling_of(number));
        const std::string parts = differing_between(asked, expected, got);
        tally.add(asked, expected.reply, parts.empty());
        const bool among_first = !parts.empty() && tally.cases - tally.agreed <= differing_shown;
        if (among_first && !in_full) print_case(asked, options.seed, in_full);
        if (among_first || in_full) {
            print_outcome("reference side", expected, in_full);
            print_outcome("library", got, in_full);
        }
        if (among_first) std::printf("  they differ in: %s. In full: --case %zu\n", parts.c_str(), std::size_t(number));
    }

    // True where every case agrees, and each kind of case was met.
    bool conclude() const {
        if (!options.only) tally.print();
        const bool met = tally.cases < many_cases || tally.all_met();
        if (options.spoil) std::printf("%zu cases were spoiled\n", tally.spoiled);
        std::printf("%zu cases, %zu agree\n", tally.cases, tally.agreed);
        return met && tally.cases == tally.agreed;
    }
};

static bool run(const Options &options) {
    std::printf("%s; %s; %s\n", openssl_version().c_str(), cryptopp_version().c_str(), botan_version().c_str());
    std::printf("%zu cases of seed %zu\n", std::size_t(options.only ? 1 : options.count), std::size_t(options.seed));
    if (!sources_agree(options.seed)) return false;
    Comparison comparison(options);
    if (options.only) {
        comparison.compare(*options.only);
    } else {
        for (std::uint64_t number = 0; number < options.count; number++) comparison.compare(number);
    }
    return comparison.conclude();
}

int main(int count, char **arguments) {
    // What was told is not lost where the library faults.
    std::setvbuf(stdout, nullptr, _IOLBF, BUFSIZ);
    try {
        return run(options_in(count, arguments)) ? EXIT_SUCCESS : EXIT_FAILURE;
    } catch (const std::invalid_argument &error) {
        std::fprintf(stderr, "compare: cannot read %s\nusage: compare [COUNT [SEED]] [--case NUMBER] [--spoil]\n",
                     error.what());
    } catch (const std::exception &error) {
        std::fprintf(stderr, "compare: %s\n", error.what());
    }
    return 2;
}
