// Random cases (cases.hpp).
#include "cases.hpp"

#include "dice.hpp"

#include <algorithm>
#include <string>

namespace foreign {

static Stage stage_of(Dice &dice, Family family, bool full) {
    const unsigned count = facts_of(family).full_count;
    return {family, full || count == 0 ? count : static_cast<unsigned>(dice.between(1, count - 1))};
}

static Stage any_stage(Dice &dice) {
    const Family family = dice.pick(families).family;
    return stage_of(dice, family, dice.percent(40));
}

static Plan plan_of(Dice &dice, Row row) {
    switch (row) {
    case Row::Des: return {stage_of(dice, Family::Des, true)};
    case Row::Ede2: return {stage_of(dice, Family::Ede2, true)};
    case Row::Ede3: return {stage_of(dice, Family::Ede3, true)};
    case Row::Idea: return {stage_of(dice, Family::Idea, true)};
    case Row::IdeaOfFewer: return {stage_of(dice, Family::Idea, false)};
    case Row::Xtea: return {stage_of(dice, Family::Xtea, true)};
    case Row::XteaOfFewer: return {stage_of(dice, Family::Xtea, false)};
    case Row::Wxor: return {stage_of(dice, Family::Wxor, true)};
    case Row::Wadd: return {stage_of(dice, Family::Wadd, true)};
    case Row::TwoStages: return {any_stage(dice), any_stage(dice)};
    case Row::ThreeStages: return {any_stage(dice), any_stage(dice), any_stage(dice)};
    default: return {any_stage(dice), any_stage(dice), any_stage(dice), any_stage(dice)};
    }
}

static std::string word_of(Dice &dice, const Stage &stage) {
    const FamilyFacts &facts = facts_of(stage.family);
    const bool may_be_left_out = stage.count == facts.full_count;
    const bool told = facts.full_count != 0 && (!may_be_left_out || dice.percent(50));
    return told ? std::string(facts.name) + ":" + std::to_string(stage.count) : facts.name;
}

static std::string some_spaces(Dice &dice, std::size_t least) {
    return std::string(dice.percent(15) ? dice.between(least, 6) : least, ' ');
}

static std::string joined(Dice &dice, const std::vector<std::string> &words) {
    std::string text = some_spaces(dice, 0);
    for (const std::string &word : words) text += (text.empty() || text.back() == ' ' ? "" : some_spaces(dice, 1)) + word;
    return text + some_spaces(dice, 0);
}

static std::string right_text(Dice &dice, const Plan &plan) {
    std::vector<std::string> words;
    for (const Stage &stage : plan) words.push_back(word_of(dice, stage));
    std::string text = joined(dice, words);
    if (dice.percent(5)) text.insert(dice.percent(50) ? 0 : text.size(), longest_description - text.size(), ' ');
    return text;
}

constexpr const char *wrong_names[] = {"",      "DES",    "Idea",  "d",     "de",     "dess", "ede",      "ede1",    "ede4",
                                       "ede23", "xte",    "tea",   "xteaa", "wor",    "wxo",  "wxadd",    "idea8",   "idea;8",
                                       "8",     "xtea\t", "\ndes", "des\r", "d\xE9s", "\xFF", "\xC2\xA0", "\x80xtea"};
constexpr const char *counts[] = {
    "",    "0",   "1",  "8",  "9",  "00", "01", "08", "10", "12",  "31",   "32", "33", "99", "100", "032",       "257",
    "264", "288", "+8", "-1", "8:", ":8", "1a", "a",  "8.", "1\t", "\xB2", "/",  "1/", ":",  "1:",  "4294967297"};

static std::string any_word(Dice &dice) {
    const std::string name = dice.percent(80) ? dice.pick(families).name : dice.pick(wrong_names);
    return dice.percent(40) ? name + ":" + dice.pick(counts) : name;
}

static std::string any_words(Dice &dice, std::size_t number) {
    std::vector<std::string> words;
    while (words.size() < number) words.push_back(dice.percent(70) ? word_of(dice, any_stage(dice)) : any_word(dice));
    return joined(dice, words);
}

static char any_letter(Dice &dice) {
    static const std::string letters = std::string(" :0123456789abdeiotwxrDX+-\t\n\r\x7F\x80\xA0\xFF") + '\0';
    return dice.percent(70) ? dice.pick(letters) : static_cast<char>(dice.byte());
}

// A right description with a letter more, less or changed.
static std::string damaged_text(Dice &dice) {
    std::string text = right_text(dice, plan_of(dice, Row(dice.below(rows - 1))));
    const std::size_t place = dice.below(text.size());
    switch (dice.below(3)) {
    case 0: text.insert(place, 1, any_letter(dice)); break;
    case 1: text.erase(place, 1); break;
    default: text[place] = any_letter(dice);
    }
    return text;
}

static std::string any_text(Dice &dice) {
    switch (dice.below(9)) {
    case 0: return any_words(dice, dice.below(8));
    case 1: return any_words(dice, dice.between(5, 7));
    case 2: return any_word(dice);
    case 3: return any_words(dice, dice.between(1, 4)).append(dice.below(90), ' ');
    case 4: return std::string(dice.below(70), ' ');
    case 5: {
        std::string text(dice.below(80), ' ');
        std::generate(text.begin(), text.end(), [&] { return any_letter(dice); });
        return text;
    }
    case 6: {
        std::string text = damaged_text(dice);
        const char last = dice.percent(50) ? ' ' : 'x';
        text.resize(longest_description + dice.below(3), last);
        return text;
    }
    default: return damaged_text(dice);
    }
}

static Bytes description_of(Dice &dice, Row row) {
    const std::string text = row == Row::Any ? any_text(dice) : right_text(dice, plan_of(dice, row));
    return Bytes(text.begin(), text.end());
}

// Keys of DES under which sealing twice gives the block back.
constexpr std::uint64_t weak_keys[] = {0x0101010101010101, 0xFEFEFEFEFEFEFEFE, 0xE0E0E0E0F1F1F1F1, 0x1F1F1F1F0E0E0E0E};

// Now and then its parts of eight bytes are all alike, or all weak.
static Bytes key_of(Dice &dice, std::size_t length) {
    Bytes key = dice.bytes(length);
    if (dice.percent(6)) {
        const std::uint64_t weak = dice.pick(weak_keys);
        for (std::size_t i = 0; i < length; i++) key[i] = static_cast<std::uint8_t>(weak >> (56 - i % 8 * 8));
    } else if (dice.percent(6)) {
        for (std::size_t i = 8; i < length; i++) key[i] = key[i - 8];
    }
    return key;
}

static std::size_t other_length(Dice &dice, std::size_t right) {
    switch (dice.below(5)) {
    case 0: return right == 0 ? 1 : right - 1;
    case 1: return right + 1;
    case 2: return right - std::min(right, block_bytes);
    case 3: return right + block_bytes;
    default: {
        const std::size_t length = dice.below(2 * right + 8);
        return length == right ? 0 : length;
    }
    }
}

// How many bytes the key of a description has, where it is read.
static std::size_t key_length_for(Dice &dice, const Bytes &description) {
    try {
        return key_bytes_of(read_plan(description));
    } catch (const Refusal &) {
        return dice.below(100);
    }
}

static Bytes start_of(Dice &dice) { return dice.bytes(dice.percent(90) ? block_bytes : other_length(dice, block_bytes)); }

// Mostly few blocks, sometimes as many as there may be.
static std::size_t some_blocks(Dice &dice) {
    const std::size_t kind = dice.below(100);
    if (kind < 5) return 0;
    if (kind < 84) return dice.between(1, 32);
    if (kind < 96) return dice.between(33, 512);
    return kind < 98 ? dice.between(513, longest_run / block_bytes) : longest_run / block_bytes - dice.below(2);
}

static std::size_t run_length(Dice &dice) {
    if (dice.percent(4))
        return longest_run + (dice.percent(50) ? dice.between(1, 16) : dice.between(1, most_bytes - longest_run));
    const std::size_t length = some_blocks(dice) * block_bytes;
    return dice.percent(8) ? std::min(length, longest_run - block_bytes) + dice.between(1, 7) : length;
}

static std::size_t plain_length(Dice &dice) {
    if (dice.percent(2)) return longest_plain - dice.below(9);
    return std::min(some_blocks(dice) * block_bytes + dice.below(block_bytes), longest_plain);
}

static std::size_t too_long_plain(Dice &dice) {
    return longest_plain + (dice.percent(50) ? dice.between(1, 16) : dice.between(1, most_bytes - longest_file));
}

static Label label_of(Dice &dice) {
    constexpr std::uint32_t axes[] = {2, 3, 0x80000000, 0xFFFFFFFF}, numbers[] = {0, 1, 0xFFFFFFFF};
    constexpr std::uint32_t serials[] = {0, 1, greatest_serial, greatest_serial + 1, 0xFFFFFFFF};
    Label label;
    label.axis = dice.percent(94) ? static_cast<std::uint32_t>(dice.below(2)) : dice.pick(axes);
    label.serial = dice.percent(85) ? static_cast<std::uint32_t>(dice.below(greatest_serial + 1)) : dice.pick(serials);
    label.number = dice.percent(90) ? static_cast<std::uint32_t>(dice.below(std::size_t(1) << 32)) : dice.pick(numbers);
    return label;
}

// An output for something that needs so many bytes: exact, longer or too short.
static std::size_t output_length(Dice &dice, std::size_t needed) {
    const std::size_t kind = dice.below(100);
    if (kind < 35) return needed;
    if (kind < 75) return needed + dice.between(1, 64);
    if (kind < 80) return std::max(needed, most_bytes - dice.below(block_bytes));
    if (kind < 90) return needed - std::min(needed, dice.between(1, 9));
    return dice.below(needed + 1);
}

static void make_close(Dice &dice, Case &made) {
    made.start = start_of(dice);
    made.label = label_of(dice);
    made.given = dice.bytes(dice.percent(4) ? too_long_plain(dice) : plain_length(dice));
    made.room = dice.bytes(output_length(dice, before_body + padded(made.given).size()));
}

// Padding that is wrong: a last byte over 8 or 0, or one before it that is not the same.
static void spoil_padding(Dice &dice, Bytes &run) {
    const std::size_t kind = dice.below(3), added = dice.between(2, block_bytes);
    run.back() = static_cast<std::uint8_t>(kind == 0 ? 0 : dice.between(block_bytes + 1, 255));
    if (kind == 2) {
        std::fill(run.end() - static_cast<std::ptrdiff_t>(added), run.end(), static_cast<std::uint8_t>(added));
        dice.flip_bit(run, run.size() - added, run.size() - 1);
    }
}

// A file of the case's description and key, that holds `plain`.
static Bytes closed(Dice &dice, const Case &made, const Bytes &plain) {
    Label label = label_of(dice);
    label.axis &= greatest_axis;
    label.serial &= greatest_serial;
    Bytes body = padded(plain), key = made.key, file = header_of(label);
    if (made.damage == Damage::Padding) spoil_padding(dice, body);
    const Bytes start = dice.bytes(block_bytes);
    const Reply reply = pass_run(made.description, key, Way::Sealing, start, body, made.number);
    if (reply.refusal != 0) body = dice.bytes(body.size());
    file.insert(file.end(), start.begin(), start.end());
    file.insert(file.end(), body.begin(), body.end());
    return file;
}

static void cut(Dice &dice, Bytes &file) {
    const std::size_t kind = dice.below(4), blocks = file.size() / block_bytes;
    if (kind == 0) file.resize(file.size() - dice.between(1, 7));
    if (kind == 1) file.resize(file.size() - block_bytes);
    if (kind == 2) file.resize(dice.below(shortest_file));
    if (kind == 3) file.resize(dice.below(blocks) * block_bytes);
}

static void extend(Dice &dice, Bytes &file) {
    constexpr std::size_t added[] = {1, 7, 8, 16};
    const std::size_t length = dice.percent(75) ? file.size() + dice.pick(added) : longest_file + dice.between(1, 24);
    while (file.size() < length) file.push_back(dice.byte());
}

// The form or the spare bits are others: the upper four or the lower three bits of the first byte.
static void spoil_form(Dice &dice, Bytes &file) {
    file[0] ^= static_cast<std::uint8_t>(dice.percent(50) ? dice.between(1, 15) << 4 : dice.between(1, 7));
}

static void damage_file(Dice &dice, Case &made) {
    Bytes &file = made.given;
    switch (made.damage) {
    case Damage::Header: return dice.flip_bit(file, 0, header_bytes);
    case Damage::Start: return dice.flip_bit(file, header_bytes, before_body);
    case Damage::Body: return dice.flip_bit(file, before_body, file.size());
    case Damage::LastBlock: return dice.flip_bit(file, file.size() - block_bytes, file.size());
    case Damage::Cut: return cut(dice, file);
    case Damage::Extended: return extend(dice, file);
    case Damage::FormOrSpare: return spoil_form(dice, file);
    case Damage::OtherKey: made.key = key_of(dice, made.key.size()); return;
    case Damage::NoFile: file = dice.bytes(dice.percent(90) ? dice.below(200) : dice.below(most_bytes)); return;
    case Damage::None:
    case Damage::Padding: return;
    }
}

static void make_open(Dice &dice, Case &made) {
    made.damage = dice.percent(50) ? Damage::None : Damage(dice.between(1, damages - 1));
    const Bytes plain = dice.bytes(plain_length(dice));
    made.given = closed(dice, made, plain);
    damage_file(dice, made);
    made.room = dice.bytes(output_length(dice, dice.percent(80) ? plain.size() : made.given.size()));
}

Case make_case(std::uint64_t seed, std::uint64_t number) {
    Dice dice(seed, number);
    Case made;
    made.number = number;
    made.call = Call(number % calls);
    made.row = Row(number / calls % rows);
    made.description = description_of(dice, made.row);
    made.key = key_of(dice, key_length_for(dice, made.description));
    if (made.call == Call::CloseTrace) {
        make_close(dice, made);
    } else if (made.call == Call::OpenTrace) {
        make_open(dice, made);
    } else {
        made.start = start_of(dice);
        made.room = dice.bytes(run_length(dice));
    }
    if (dice.percent(7)) made.key = key_of(dice, other_length(dice, made.key.size()));
    return made;
}

} // namespace foreign
