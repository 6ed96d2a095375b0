// The library's side of a case (library.hpp).
#include "library.hpp"

#include "jinthoral.h"

#include <algorithm>
#include <csignal>
#include <cstring>
#include <stdexcept>
#include <string>
#include <sys/mman.h>
#include <unistd.h>

namespace foreign {

static std::size_t page() { return static_cast<std::size_t>(sysconf(_SC_PAGESIZE)); }

static void demand(bool done, const char *what) {
    if (!done) throw std::runtime_error(what);
}

Region::Region(std::size_t least_capacity) : capacity((least_capacity / page() + 1) * page()) {
    void *mapped = mmap(nullptr, capacity + 2 * page(), PROT_NONE, MAP_PRIVATE | MAP_ANONYMOUS, -1, 0);
    demand(mapped != MAP_FAILED, "memory cannot be mapped");
    base = static_cast<std::uint8_t *>(mapped) + page();
    let_write(true);
}

Region::~Region() { munmap(base - page(), capacity + 2 * page()); }

void Region::let_write(bool allowed) {
    demand(mprotect(base, capacity, allowed ? PROT_READ | PROT_WRITE : PROT_READ) == 0, "memory cannot be protected");
}

void Region::put(const Bytes &bytes, bool at_end, std::uint8_t fill_with) {
    demand(bytes.size() <= capacity, "a case has more bytes than a region");
    filling = fill_with;
    length = bytes.size();
    first = at_end ? base + capacity - length : base;
    std::memset(base, filling, capacity);
    std::copy(bytes.begin(), bytes.end(), first);
}

static bool all_are(const std::uint8_t *from, const std::uint8_t *to, std::uint8_t value) {
    return from == to || (*from == value && std::memcmp(from, from + 1, static_cast<std::size_t>(to - from - 1)) == 0);
}

bool Region::surroundings_kept() const {
    return all_are(base, first, filling) && all_are(first + length, base + capacity, filling);
}

void Region::spoil(bool inside) {
    const bool flipped_inside = inside && length != 0;
    std::uint8_t *beside = first == base ? first + length : first - 1;
    *(flipped_inside ? first + length / 2 : beside) ^= 0x10;
}

static char fault_text[128];
static std::size_t fault_length;

static void tell_fault(int) {
    const bool told = write(STDOUT_FILENO, fault_text, fault_length) >= 0;
    _exit(told ? 1 : 2);
}

// As long as it lasts, a fault of memory names the case, and ends the program with status 1.
class FaultTeller {
    static constexpr int signals[] = {SIGSEGV, SIGBUS};
    struct sigaction before[std::size(signals)];

public:
    explicit FaultTeller(std::uint64_t number) {
        const std::string text = "case " + std::to_string(number) + ": the library touched memory that it must not touch\n";
        fault_length = text.copy(fault_text, sizeof fault_text);
        struct sigaction telling = {};
        telling.sa_handler = tell_fault;
        for (std::size_t i = 0; i < std::size(signals); i++) sigaction(signals[i], &telling, &before[i]);
    }

    ~FaultTeller() {
        for (std::size_t i = 0; i < std::size(signals); i++) sigaction(signals[i], &before[i], nullptr);
    }
};

Library::Library() : description(most_bytes), key(most_bytes), start(most_bytes), given(most_bytes), room(most_bytes) {}

static Reply reply_of(const jinthoral_reply &answer) {
    Reply reply;
    reply.refusal = answer.refusal;
    reply.place = answer.place;
    reply.length = answer.length;
    return reply;
}

Reply Library::call(const Case &asked) {
    const FaultTeller teller(asked.number);
    if (asked.call == Call::CloseTrace)
        return reply_of(jinthoral_close(description.data(), description.size(), key.data(), key.size(), asked.label.axis,
                                        asked.label.serial, asked.label.number, start.data(), start.size(), given.data(),
                                        given.size(), room.data(), room.size()));
    if (asked.call == Call::OpenTrace) {
        const jinthoral_opened opened = jinthoral_open(description.data(), description.size(), key.data(), key.size(),
                                                       given.data(), given.size(), room.data(), room.size());
        Reply reply = reply_of(opened.reply);
        reply.label = {opened.axis, opened.serial, opened.number};
        return reply;
    }
    return reply_of(jinthoral_pass(description.data(), description.size(), key.data(), key.size(), asked.call == Call::Open,
                                   start.data(), start.size(), room.data(), room.size()));
}

void Library::spoil(Reply &reply, std::uint64_t which) {
    Region *const regions[] = {&description, &key, &start, &given, &room};
    const std::uint64_t kind = which % (6 + 2 * std::size(regions));
    switch (kind) {
    case 0: reply.refusal ^= 1; break;
    case 1: reply.place ^= 1; break;
    case 2: reply.length ^= 8; break;
    case 3: reply.label.axis ^= 1; break;
    case 4: reply.label.serial ^= 1; break;
    case 5: reply.label.number ^= 1; break;
    default: regions[(kind - 6) / 2]->spoil(kind % 2 == 0);
    }
}

Outcome Library::outcome(const Case &asked, std::uint64_t spoiling) {
    // Every combination of what begins and what ends at a page that cannot be touched, for each row and call.
    const std::uint64_t round = asked.number / calls / rows;
    const auto filling = static_cast<std::uint8_t>(0xA5 ^ round);
    description.put(asked.description, round & 1, filling);
    key.put(asked.key, round & 2, filling);
    start.put(asked.start, round & 4, filling);
    given.put(asked.given, round & 8, filling);
    room.put(asked.room, round & 16, filling);
    for (Region *read : {&description, &start, &given}) read->let_write(false);
    Outcome left;
    left.reply = call(asked);
    for (Region *read : {&description, &start, &given}) read->let_write(true);
    if (spoiling != not_spoiled) spoil(left.reply, spoiling);
    left.description = description.bytes();
    left.key = key.bytes();
    left.start = start.bytes();
    left.given = given.bytes();
    left.room = room.bytes();
    for (const Region *region : {&description, &key, &start, &given, &room})
        left.surroundings_kept = left.surroundings_kept && region->surroundings_kept();
    return left;
}

} // namespace foreign
