// Counts and sorts words, for bench/elf/containers.py, which stops it anywhere in the namespace `example`.
#include <array>
#include <map>
#include <set>
#include <string>
#include <string_view>
#include <unordered_map>
#include <unordered_set>
#include <vector>

namespace example {

static const char TEXT[] = "the quick brown fox jumps over the lazy dog and the extraordinarily long-winded narrator";

struct Tally {
    std::map<std::string, int> counts;
    std::vector<std::string> order;
    std::array<short, 4> lengths;
};

__attribute__((noinline)) std::vector<std::string> split(std::string_view text) {
    std::vector<std::string> words;
    std::string word;
    std::string_view rest = text;
    for (size_t place = 0; place < rest.size(); place++) {
        char letter = rest[place];
        if (letter == ' ') {
            words.push_back(word);
            word.clear();
        } else {
            word += letter;
        }
    }
    words.push_back(word);
    return words;
}

__attribute__((noinline)) Tally tally(const std::vector<std::string> &words) {
    Tally found{};
    std::set<std::string> seen;
    std::unordered_set<int> sizes;
    for (const std::string &word : words) {
        found.counts[word]++;
        if (seen.insert(word).second) found.order.push_back(word);
        sizes.insert(static_cast<int>(word.size()));
        found.lengths[word.size() % 4]++;
    }
    std::multiset<int> sorted(sizes.begin(), sizes.end());
    sorted.insert(3);
    return found;
}

__attribute__((noinline)) int index(const std::vector<std::string> &words) {
    std::unordered_map<std::string, std::vector<int>> places;
    std::unordered_map<int, double> weights;
    std::multimap<int, std::string_view> by_size;
    std::vector<bool> is_long;
    std::vector<std::vector<int>> grid;
    for (size_t place = 0; place < words.size(); place++) {
        const std::string &word = words[place];
        places[word].push_back(static_cast<int>(place));
        weights[static_cast<int>(place)] = word.size() / 2.0;
        by_size.emplace(static_cast<int>(word.size()), word);
        is_long.push_back(word.size() > 4);
        grid.push_back(std::vector<int>(place % 3, static_cast<int>(place)));
    }
    std::wstring wide = L"wide";
    std::u16string half = u"half";
    wide += L" words";
    return static_cast<int>(places.size() + weights.size() + by_size.size() + is_long.size() + grid.size() +
                            wide.size() + half.size());
}

__attribute__((noinline)) int run() {
    std::vector<std::string> words = split(TEXT);
    Tally found = tally(words);
    int all = index(words) + static_cast<int>(found.counts.size());
    return all + found.lengths[0];
}

} // namespace example

int main() { return example::run() == 0; }
