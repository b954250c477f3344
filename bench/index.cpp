// What ICU4C's sort keys in a std::multimap do with the commands of `collate`: index < COMMANDS, built by
// g++ -O2 index.cpp -licui18n -licuuc.
//
// It answers `add NAME` and `find NAME` as `collate` does, in the root order at strength Tertiary, a reply a line. Bytes that
// are there already are looked for in a std::unordered_set, so that no search walks over equal names.
#include <iostream>
#include <map>
#include <string>
#include <unicode/coll.h>
#include <unordered_set>

using Names = std::multimap<std::string, std::string>;

static std::string key_of(const icu::Collator &collator, const std::string &name) {
    uint8_t key[1024];
    const int length = collator.getSortKey(icu::UnicodeString::fromUTF8(name), key, sizeof key);
    return std::string(reinterpret_cast<char *>(key), length - 1);
}

static void answer(const icu::Collator &collator, Names &names, std::unordered_set<std::string> &bytes, const std::string &line) {
    if (line.rfind("add ", 0) == 0) {
        const std::string name = line.substr(4);
        const bool is_new = bytes.insert(name).second;
        if (is_new) names.emplace(key_of(collator, name), name);
        std::cout << (is_new ? "added\n" : "duplicate\n");
    } else if (line.rfind("find ", 0) == 0) {
        const auto found = names.equal_range(key_of(collator, line.substr(5)));
        std::cout << "names " << std::distance(found.first, found.second) << '\n';
        for (auto name = found.first; name != found.second; ++name) std::cout << name->second << '\n';
    } else {
        std::cout << "bad\n";
    }
}

int main() {
    std::ios::sync_with_stdio(false);
    std::cin.tie(nullptr);
    UErrorCode status = U_ZERO_ERROR;
    const icu::Collator *collator = icu::Collator::createInstance(icu::Locale::getRoot(), status);
    if (U_FAILURE(status)) return 1;
    Names names;
    std::unordered_set<std::string> bytes;
    for (std::string line; std::getline(std::cin, line);) {
        answer(*collator, names, bytes, line);
        // as `collate`, which writes together the replies to what it has read
        if (std::cin.rdbuf()->in_avail() <= 0) std::cout.flush();
    }
}
