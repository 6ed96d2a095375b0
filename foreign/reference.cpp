// The reference side (reference.hpp).
#include "reference.hpp"

#include <algorithm>

namespace foreign {

static void refuse_if(bool wrong, std::uint64_t number, std::size_t place = 0) {
    if (wrong) throw Refusal{number, place};
}

// A piece of a description between spaces.
struct Word {
    std::size_t place;
    std::string text;
};

static std::vector<Word> words_of(const Bytes &description) {
    std::vector<Word> words;
    bool in_word = false;
    for (std::size_t place = 0; place < description.size(); place++) {
        const char letter = static_cast<char>(description[place]);
        if (letter != ' ' && !in_word) words.push_back({place, ""});
        in_word = letter != ' ';
        if (in_word) words.back().text += letter;
    }
    return words;
}

static bool is_digit(char letter) { return letter >= '0' && letter <= '9'; }

// A number of one or two digits, the first of them not 0; else 0.
static unsigned count_of(const std::string &text) {
    const bool right =
        (text.size() == 1 || text.size() == 2) && text[0] != '0' && std::all_of(text.begin(), text.end(), is_digit);
    return right ? static_cast<unsigned>(std::stoul(text)) : 0;
}

static Stage stage_of(const Word &word) {
    const std::size_t colon = word.text.find(':');
    const std::string name = word.text.substr(0, colon);
    const auto *facts = std::find_if(std::begin(families), std::end(families), [&](auto &known) { return name == known.name; });
    refuse_if(facts == std::end(families), 3, word.place);
    if (colon == std::string::npos) return {facts->family, facts->full_count};
    const unsigned count = count_of(word.text.substr(colon + 1));
    refuse_if(count < 1 || count > facts->full_count, 4, word.place + colon);
    return {facts->family, count};
}

Plan read_plan(const Bytes &description) {
    refuse_if(description.size() > longest_description, 1, longest_description);
    const std::vector<Word> words = words_of(description);
    refuse_if(words.empty(), 2, description.size());
    Plan plan;
    for (const Word &word : words) {
        refuse_if(plan.size() == most_stages, 5, word.place);
        plan.push_back(stage_of(word));
    }
    return plan;
}

std::size_t key_bytes_of(const Plan &plan) {
    std::size_t bytes = 0;
    for (const Stage &stage : plan) bytes += facts_of(stage.family).key_bytes;
    return bytes;
}

std::vector<Source> sources_of(const Plan &plan, std::size_t turn) {
    std::vector<Source> chosen;
    for (const Stage &stage : plan) {
        const std::vector<Source> sources = sources_of(stage);
        chosen.push_back(sources[turn++ % sources.size()]);
    }
    return chosen;
}

Pile::Pile(const Plan &plan, const Bytes &key, std::size_t turn) {
    const std::vector<Source> sources = sources_of(plan, turn);
    auto part = key.begin();
    for (std::size_t i = 0; i < plan.size(); i++) {
        const auto behind = part + static_cast<std::ptrdiff_t>(facts_of(plan[i].family).key_bytes);
        stages.push_back(make_cipher(sources[i], plan[i], Bytes(part, behind)));
        part = behind;
    }
}

void Pile::pass(Way way, std::uint8_t *block) {
    if (way == Way::Sealing)
        for (auto stage = stages.begin(); stage != stages.end(); ++stage) (*stage)->pass(way, block);
    else
        for (auto stage = stages.rbegin(); stage != stages.rend(); ++stage) (*stage)->pass(way, block);
}

void Pile::chain(Way way, const std::uint8_t *start, std::uint8_t *run, std::size_t length) {
    if (stages.size() == 1) stages[0]->chain(way, start, run, length);
    else Cipher::chain(way, start, run, length);
}

static Pile fitted(const Bytes &description, const Bytes &key, std::size_t turn) {
    const Plan plan = read_plan(description);
    refuse_if(key.size() != key_bytes_of(plan), 6);
    return Pile(plan, key, turn);
}

// What `call` answers, or the refusal that it throws. The key is zeros afterwards.
template <class Call> static Reply answer_of(Bytes &key, Call call) {
    Reply reply;
    try {
        reply = call();
    } catch (const Refusal &refusal) {
        reply.refusal = refusal.number;
        reply.place = refusal.place;
    }
    std::fill(key.begin(), key.end(), std::uint8_t(0));
    return reply;
}

Reply pass_run(const Bytes &description, Bytes &key, Way way, const Bytes &start, Bytes &run, std::size_t turn) {
    return answer_of(key, [&] {
        Pile pile = fitted(description, key, turn);
        refuse_if(start.size() != block_bytes, 7);
        refuse_if(run.size() > longest_run, 8);
        refuse_if(run.size() % block_bytes != 0, 9);
        if (!run.empty()) pile.chain(way, start.data(), run.data(), run.size());
        Reply reply;
        reply.length = run.size();
        return reply;
    });
}

Bytes padded(Bytes plain) {
    const std::size_t added = block_bytes - plain.size() % block_bytes;
    plain.insert(plain.end(), added, static_cast<std::uint8_t>(added));
    return plain;
}

// The fields of a header: form, axis, spare, serial and trace number, packed with the most significant first.
constexpr unsigned axis_at = 59, serial_at = 32;
constexpr std::uint64_t form_and_spare = 0xF7ULL << 56, right_form = 0x10ULL << 56;

Bytes header_of(const Label &label) {
    const std::uint64_t header =
        right_form | std::uint64_t(label.axis) << axis_at | std::uint64_t(label.serial) << serial_at | label.number;
    Bytes bytes;
    for (unsigned shift = 64; shift > 0; shift -= 8) bytes.push_back(static_cast<std::uint8_t>(header >> (shift - 8)));
    return bytes;
}

Reply close_trace(const Bytes &description, Bytes &key, const Label &label, const Bytes &start, const Bytes &plain,
                  Bytes &output, std::size_t turn) {
    return answer_of(key, [&] {
        Pile pile = fitted(description, key, turn);
        refuse_if(start.size() != block_bytes, 7);
        refuse_if(plain.size() > longest_plain, 8);
        refuse_if(label.axis > greatest_axis || label.serial > greatest_serial, 11);
        Bytes body = padded(plain);
        Reply reply;
        reply.length = before_body + body.size();
        refuse_if(output.size() < reply.length, 15);
        pile.chain(Way::Sealing, start.data(), body.data(), body.size());
        const Bytes header = header_of(label);
        const auto after_header = std::copy(header.begin(), header.end(), output.begin());
        std::copy(body.begin(), body.end(), std::copy(start.begin(), start.end(), after_header));
        return reply;
    });
}

static std::uint64_t header_in(const Bytes &file) {
    std::uint64_t header = 0;
    for (std::size_t i = 0; i < header_bytes; i++) header = header << 8 | file[i];
    return header;
}

// How many bytes of padding a run ends with, from 1 to 8; 0 where it ends with none.
static std::size_t padding_of(const Bytes &run) {
    const std::uint8_t added = run.back();
    const bool right = added >= 1 && added <= block_bytes;
    return right && std::all_of(run.end() - added, run.end(), [&](std::uint8_t byte) { return byte == added; }) ? added : 0;
}

Reply open_trace(const Bytes &description, Bytes &key, const Bytes &file, Bytes &output, std::size_t turn) {
    return answer_of(key, [&] {
        Pile pile = fitted(description, key, turn);
        refuse_if(file.size() < shortest_file || file.size() > longest_file || file.size() % block_bytes != 0, 12);
        const std::uint64_t header = header_in(file);
        refuse_if((header & form_and_spare) != right_form, 13);
        Bytes body(file.begin() + before_body, file.end());
        pile.chain(Way::Opening, &file[header_bytes], body.data(), body.size());
        const std::size_t added = padding_of(body);
        refuse_if(added == 0, 14);
        Reply reply;
        reply.length = body.size() - added;
        refuse_if(output.size() < reply.length, 15);
        reply.label.axis = header >> axis_at & 1;
        reply.label.serial = header >> serial_at & greatest_serial;
        reply.label.number = static_cast<std::uint32_t>(header);
        std::copy_n(body.begin(), reply.length, output.begin());
        return reply;
    });
}

} // namespace foreign
