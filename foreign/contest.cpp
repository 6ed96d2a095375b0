#include "contest.hpp"

#include "dice.hpp"

#include <stdexcept>

namespace foreign {

constexpr std::size_t times_counted = 2;

std::unique_ptr<Contestant> make_contestant(Entrant entrant, const Task &task, const Bytes &key) {
    switch (entrant) {
    case Entrant::Library: return make_library_contestant(task, key);
    case Entrant::OpenSsl: return make_openssl_contestant(task, key);
    case Entrant::CryptoPp: return make_cryptopp_contestant(task, key);
    case Entrant::Botan: return make_botan_contestant(task, key, true);
    case Entrant::BotanWithoutSimd: return make_botan_contestant(task, key, false);
    }
    return nullptr;
}

static Bytes random_bytes(Dice &dice, std::size_t length) {
    Bytes made(length);
    for (auto &each : made) each = dice.byte();
    return made;
}

Contest::Contest(const Task &task, std::uint64_t seed) : task(task) {
    Dice dice(seed, static_cast<std::uint64_t>(task.family));
    const std::size_t key_bytes = facts_of(task.family).key_bytes;
    key = random_bytes(dice, key_bytes);
    start = random_bytes(dice, block_bytes);
    plain = random_bytes(dice, run_bytes);
    batch = random_bytes(dice, keys_in_batch * key_bytes);
    for (std::size_t i = 0; i < entrants; i++) places[i].contestant = make_contestant(static_cast<Entrant>(i), task, key);
}

Bytes Contest::chained(Contestant &contestant) const {
    Bytes run = plain;
    contestant.prepare();
    contestant.chain(start.data(), run.data(), run.size());
    return run;
}

Bytes Contest::passed_under_each(Contestant &contestant) const {
    Bytes keys = batch, block = start;
    contestant.prepare();
    contestant.pass_under_each(keys, block.data());
    return block;
}

void Contest::demand_agreement() const {
    const Bytes run = chained(*places[0].contestant), block = passed_under_each(*places[0].contestant);
    for (std::size_t i = 1; i < entrants; i++)
        if (const auto &peer = places[i].contestant; peer && (chained(*peer) != run || passed_under_each(*peer) != block))
            throw std::runtime_error(std::string(entrant_names[i]) + " disagrees with ours about " +
                                     facts_of(task.family).name);
}

// The first time is not counted: the tables and the code that the work needs may not be at hand. All work is done by libraries
// that were compiled apart, so none of it can be left out.
template <class Work> static void time(Least &least, const Bytes &given, const Work &work) {
    Least uncounted;
    for (std::size_t i = 0; i <= times_counted; i++) {
        Bytes taken = given;
        (i == 0 ? uncounted : least).time([&] { work(taken); });
    }
}

void Contest::take_turn(Place &place) {
    Contestant &contestant = *place.contestant;
    contestant.prepare();
    time(place.chain, plain, [&](Bytes &run) { contestant.chain(start.data(), run.data(), run.size()); });
    time(place.keys, batch, [&](Bytes &keys) { contestant.set_keys(keys); });
    Bytes block = start;
    time(place.firsts, batch, [&](Bytes &keys) { contestant.pass_under_each(keys, block.data()); });
    time(place.again, block, [&](Bytes &again) { contestant.pass_again(again.data(), times_again); });
}

// So often that the clock's own time does not count.
static std::size_t repeats_of(std::size_t blocks) { return blocks < 512 ? 512 / std::max<std::size_t>(blocks, 1) : 1; }

void Contest::take_short_runs() {
    Contestant &ours = *places[0].contestant;
    Bytes run = plain;
    for (std::size_t i = 0; i < std::size(blocks_measured); i++) {
        const std::size_t blocks = blocks_measured[i], repeats = repeats_of(blocks);
        short_runs[i].time([&] {
            for (std::size_t n = 0; n < repeats; n++) ours.chain(start.data(), run.data(), blocks * block_bytes);
        });
    }
}

void Contest::hold_round() {
    for (auto &place : places)
        if (place.contestant) take_turn(place);
    take_short_runs();
}

std::optional<double> Contest::told(Entrant entrant, const Least Place::*work) const {
    const Place &place = places[static_cast<std::size_t>(entrant)];
    if (!place.contestant) return std::nullopt;
    return (place.*work).nanoseconds();
}

static std::optional<double> part(const std::optional<double> &whole, std::size_t parts) {
    if (!whole) return std::nullopt;
    return *whole / static_cast<double>(parts);
}

std::optional<double> Contest::key_time(Entrant entrant) const { return part(told(entrant, &Place::keys), keys_in_batch); }

std::optional<double> Contest::first_block_time(Entrant entrant) const {
    return part(told(entrant, &Place::firsts), keys_in_batch);
}

std::optional<double> Contest::key_alone_time(Entrant entrant) const {
    const auto first = first_block_time(entrant), another = part(told(entrant, &Place::again), times_again);
    if (!first || !another) return std::nullopt;
    return *first - *another;
}

double Contest::short_run_time(std::size_t which) const {
    return short_runs[which].nanoseconds() / static_cast<double>(repeats_of(blocks_measured[which]));
}

} // namespace foreign
