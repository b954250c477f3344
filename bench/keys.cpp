// The sort keys that ICU4C makes of the lines of standard input, in hexadecimal digits as `collate` answers them, in the root
// order at strength Tertiary: keys < NAMES, built by g++ -O2 keys.cpp -licui18n -licuuc.
#include <cstdint>
#include <iostream>
#include <string>
#include <unicode/coll.h>
#include <vector>

int main() {
    std::ios::sync_with_stdio(false);
    UErrorCode status = U_ZERO_ERROR;
    const icu::Collator *collator = icu::Collator::createInstance(icu::Locale::getRoot(), status);
    if (U_FAILURE(status)) return 1;
    std::vector<uint8_t> key(1024);
    for (std::string line, digits; std::getline(std::cin, line); digits.clear()) {
        const auto text = icu::UnicodeString::fromUTF8(line);
        int32_t length = collator->getSortKey(text, key.data(), static_cast<int32_t>(key.size()));
        if (length > static_cast<int32_t>(key.size())) {
            key.resize(length);
            length = collator->getSortKey(text, key.data(), length);
        }
        for (int32_t at = 0; at + 1 < length; ++at) {
            digits += "0123456789abcdef"[key[at] >> 4];
            digits += "0123456789abcdef"[key[at] & 15];
        }
        std::cout << digits << '\n';
    }
}
