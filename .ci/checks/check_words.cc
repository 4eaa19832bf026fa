// A driver for the check `check_words`: it tries the repair and the renewal of woven classes against the definition of the code, which looks at
// one bit place after the other. `woven.cc` is what was woven, `tries.h` how to reach the words of each class, and `calls.h` calls `judge` for each.
// `std::abort` is replaced by a throw, so that words which can't be repaired are seen.

#include <cstdint>
#include <cstdio>
#include <cstdlib>
#include <iostream>
#include <mutex>
#include <optional>
#include <random>
#include <thread>
#include <type_traits>
#include <vector>

struct Beyond {};

namespace std {
[[noreturn]] inline void beyond() { throw Beyond(); }
}

#define abort beyond
#define main woven_main
#include "woven.cc"
#undef main
#undef abort

#include "tries.h"

using Words = std::vector<std::uint64_t>;

// Whether a number is a power of two, and so the position of a check word.
bool is_power(int position) { return (position & (position - 1)) == 0; }

// A part: where each word stands. The parity word, which is the last, has no position.
struct Layout {
    int members;
    std::vector<int> widths;
    std::vector<int> positions;

    Layout(int members, std::vector<int> widths) : members(members), widths(widths) {
        int checks = int(widths.size()) - members - 1;
        for (int at = 3; int(positions.size()) < members; ++at) {
            if (!is_power(at)) { positions.push_back(at); }
        }
        for (int digit = 0; digit < checks; ++digit) { positions.push_back(1 << digit); }
    }

    // The number whose binary digits are the sums of a bit place, and the sum of all.
    std::pair<int, int> sums(const Words& words, int place) const {
        int found = 0, all = int(words.back() >> place & 1);
        for (std::size_t word = 0; word < positions.size(); ++word) {
            if (words[word] >> place & 1) { found ^= positions[word]; all ^= 1; }
        }
        return {found, all};
    }

    // What repair leaves, or nothing where it can't repair.
    std::optional<Words> repaired(Words words) const {
        const Words given = words;
        for (int place = 0; place < 64; ++place) {
            auto [found, all] = sums(given, place);
            if (found == 0) {
                words.back() ^= std::uint64_t(all) << place;
                continue;
            }
            std::size_t word = 0;
            while (word < positions.size() && positions[word] != found) { ++word; }
            if (!all || word == positions.size() || place >= widths[word]) { return std::nullopt; }
            words[word] ^= std::uint64_t(1) << place;
        }
        return words;
    }

    // Whether words are what is encoded of their members: no sum is 1.
    bool is_encoded(const Words& words) const {
        for (int place = 0; place < 64; ++place) {
            if (sums(words, place) != std::pair(0, 0)) { return false; }
        }
        return true;
    }
};

std::mt19937_64 drawn(7);
int faults = 0;

void tell(const char* what, int members, int one, int other) {
    if (++faults < 20) { std::printf("%s: %d members, words %d and %d\n", what, members, one, other); }
}

std::uint64_t kept(std::uint64_t word, int width) { return width == 64 ? word : word & ((std::uint64_t(1) << width) - 1); }

// Tries repair on words, and compares what comes with the definition.
template <class Of> void judge_words(Of& of, const Layout& layout, const Words& words, int one, int other) {
    auto wanted = layout.repaired(words);
    of.set(words);
    bool is_beyond = false;
    try { of.repair(); } catch (Beyond&) { is_beyond = true; }
    if (is_beyond != !wanted) { tell(is_beyond ? "halts" : "does not halt", layout.members, one, other); }
    if (of.words() != (wanted ? *wanted : words)) { tell("repairs otherwise", layout.members, one, other); }
}

// Words that are encoded of members, as renewal leaves them.
template <class Of> Words renewed(Of& of, const Layout& layout, Words members) {
    of.set(members);
    of.renew();
    Words words = of.words();
    bool same = layout.is_encoded(words);
    for (int member = 0; member < layout.members; ++member) { same = same && words[member] == members[member]; }
    if (!same) { tell("renews otherwise", layout.members, -1, -1); }
    return words;
}

template <class Of> void judge() {
    // Its memory is zero at first, which the constructor counts on.
    static Of of;
    Layout layout(Of::members, of.widths());
    int count = int(layout.widths.size());
    auto random_words = [&] {
        Words words;
        for (int width : layout.widths) { words.push_back(kept(drawn(), width)); }
        return words;
    };
    auto flipped = [&](Words words, int word, int bit) { words[word] ^= std::uint64_t(1) << bit; return words; };
    for (Words members : {Words(count, 0), random_words(), random_words()}) {
        for (int word = 0; word < count; ++word) { if (word >= layout.members) { members[word] = drawn(); } }
        Words words = renewed(of, layout, members);
        judge_words(of, layout, words, -1, -1);
        for (int one = 0; one < count; ++one) {
            for (int bit = 0; bit < layout.widths[one]; ++bit) {
                Words damaged = flipped(words, one, bit);
                if (layout.repaired(damaged) != words) { tell("definition", layout.members, one, bit); }
                judge_words(of, layout, damaged, one, bit);
            }
            for (int tries = 0; tries < (count < 40 ? 3 * count : 20); ++tries) {
                int other = int(drawn() % count), place = int(drawn() % layout.widths[other]);
                Words damaged = flipped(flipped(words, one, int(drawn() % layout.widths[one])), other, place);
                judge_words(of, layout, damaged, one, other);
                if (other == one || place >= layout.widths[one]) { continue; }
                damaged = flipped(flipped(words, one, place), other, place);
                if (layout.repaired(damaged)) { tell("definition of pairs", layout.members, one, other); }
                judge_words(of, layout, damaged, one, other);
            }
        }
    }
    // Each number that the sums of a bit place can make, with each sum of all: check words of its digits are flipped, and the parity word.
    const Words words = renewed(of, layout, random_words());
    int checks = count - layout.members - 1;
    for (int found = 0; found < 1 << checks; ++found) {
        for (int place : {0, 7, 8, 15, 16, 31, 32, 63}) {
            Words damaged = words;
            for (int digit = 0; digit < checks; ++digit) {
                if (found >> digit & 1) { damaged = flipped(damaged, layout.members + digit, place); }
            }
            judge_words(of, layout, damaged, -2, found);
            judge_words(of, layout, flipped(damaged, count - 1, place), -2, found);
        }
    }
    // Words of all kinds: any, which are beyond repair, and encoded ones with one wrong bit at each of many places.
    for (int tries = 0; tries < 200; ++tries) {
        judge_words(of, layout, random_words(), -2, tries);
        Words damaged = words;
        for (int place = 0; place < 64; ++place) {
            int word = int(drawn() % count);
            if (place < layout.widths[word] && drawn() % 2) { damaged = flipped(damaged, word, place); }
        }
        if (!layout.repaired(damaged)) { tell("definition of many", layout.members, -3, tries); }
        judge_words(of, layout, damaged, -3, tries);
    }
    of.set(Words(count, 0));
}

int main() {
#include "calls.h"
    return faults ? 1 : 0;
}
