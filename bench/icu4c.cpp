// What ICU4C does with the same names on the same machine: icu4c NAMES [LOCALE TASK ROUNDS [OPTION=VALUE]..], built by
// g++ -O2 icu4c.cpp -licui18n -licuuc.
//
// With NAMES alone: sort keys and comparisons a second at strength Tertiary in the root order, as `names` below; and collation
// elements, by characters a second: the best of three rounds, by processor time.
//
// TASK, by the order of LOCALE, with the options that are given in the words of `collate` (and `backward=on`), the best of
// so many rounds:
// - keys: sort keys of names in UTF-8, each converted to UTF-16;
// - random, near: comparisons of each name in UTF-8 with one far from it, with the next in the order of keys;
// - names: all three, and keys of the names in UTF-16 (`keys_units`);
// - keys16, random16, near16, names16: the same of names in UTF-16;
// - nfc, nfd, nfkc, nfkd, with `is_` before it or `_utf8`, `_utf16` behind it: normal forms of each line, as many a second, in
//   UTF-8 or UTF-16, or whether it is in the form.
// Normalization is as the locale has it: off in the root.
#include <algorithm>
#include <cstdio>
#include <cstdlib>
#include <ctime>
#include <fstream>
#include <string>
#include <unicode/coleitr.h>
#include <unicode/normalizer2.h>
#include <unicode/tblcoll.h>
#include <unicode/ustring.h>
#include <vector>

using icu::UnicodeString;

static const int KEY_ROOM = 4096, TEXT_ROOM = 4096;
static int rounds = 3;
static long sum = 0;

using Bytes = icu::StringPiece;
using Units = std::u16string_view;

// The names one behind another, as ours has them, and where each stands.
struct Names {
    std::string file;
    std::u16string file_units;
    std::vector<Bytes> lines;
    std::vector<Units> units;
};

static double seconds_used() {
    timespec used;
    clock_gettime(CLOCK_PROCESS_CPUTIME_ID, &used);
    return used.tv_sec + used.tv_nsec / 1e9;
}

// A function of its own in the executable, so that a profiler sees where a round begins and ends.
template <typename Work> __attribute__((noinline)) static void work_a_round(Work &work) { work(); }

template <typename Work> static double best(Work work) {
    double least = 1e9;
    for (int round = 0; round < rounds; ++round) {
        const auto begin = seconds_used();
        work_a_round(work);
        least = std::min(least, seconds_used() - begin);
    }
    return least;
}

static void read(const char *path, Names &names) {
    std::ifstream file(path, std::ios::binary);
    names.file.assign(std::istreambuf_iterator<char>(file), {});
    const auto text = UnicodeString::fromUTF8(names.file);
    names.file_units.assign(text.getBuffer(), text.length());
    for (size_t at = 0, end; (end = names.file.find('\n', at)) != std::string::npos; at = end + 1)
        names.lines.emplace_back(names.file.data() + at, static_cast<int32_t>(end - at));
    for (size_t at = 0, end; (end = names.file_units.find(u'\n', at)) != std::string::npos; at = end + 1)
        names.units.emplace_back(names.file_units.data() + at, end - at);
}

static bool set_option(icu::Collator &collator, const std::string &word) {
    static const struct { const char *word; UColAttribute attribute; UColAttributeValue value; } OPTIONS[] = {
        {"strength=primary", UCOL_STRENGTH, UCOL_PRIMARY},       {"strength=secondary", UCOL_STRENGTH, UCOL_SECONDARY},
        {"strength=tertiary", UCOL_STRENGTH, UCOL_TERTIARY},     {"strength=quaternary", UCOL_STRENGTH, UCOL_QUATERNARY},
        {"strength=identical", UCOL_STRENGTH, UCOL_IDENTICAL},   {"caselevel=on", UCOL_CASE_LEVEL, UCOL_ON},
        {"casefirst=upper", UCOL_CASE_FIRST, UCOL_UPPER_FIRST},  {"casefirst=lower", UCOL_CASE_FIRST, UCOL_LOWER_FIRST},
        {"backward=on", UCOL_FRENCH_COLLATION, UCOL_ON},         {"numeric=on", UCOL_NUMERIC_COLLATION, UCOL_ON},
        {"alternate=shifted", UCOL_ALTERNATE_HANDLING, UCOL_SHIFTED},
    };
    UErrorCode status = U_ZERO_ERROR;
    if (word == "maxvariable=punctuation") collator.setMaxVariable(UCOL_REORDER_CODE_PUNCTUATION, status);
    else {
        const auto *option = std::find_if(std::begin(OPTIONS), std::end(OPTIONS), [&](const auto &one) {
            return word == one.word;
        });
        if (option == std::end(OPTIONS)) return false;
        collator.setAttribute(option->attribute, option->value, status);
    }
    return U_SUCCESS(status);
}

static int write_key(const icu::Collator &collator, Units text, uint8_t *key) {
    return collator.getSortKey(text.data(), text.size(), key, KEY_ROOM);
}

static void measure_keys(const icu::Collator &collator, const Names &names) {
    const double seconds = best([&] {
        uint8_t key[KEY_ROOM];
        UChar text[TEXT_ROOM];
        for (const auto &line : names.lines) {
            UErrorCode error = U_ZERO_ERROR;
            int32_t length = 0;
            u_strFromUTF8(text, TEXT_ROOM, &length, line.data(), line.size(), &error);
            sum += collator.getSortKey(text, length, key, KEY_ROOM);
        }
    });
    printf("keys %.0f\n", names.lines.size() / seconds);
}

static void measure_unit_keys(const icu::Collator &collator, const char *title, const Names &names) {
    const double seconds = best([&] {
        uint8_t key[KEY_ROOM];
        for (const auto &text : names.units) sum += write_key(collator, text, key);
    });
    printf("%s %.0f\n", title, names.units.size() / seconds);
}

// Compares each name of a list of places with the name of the same rank in another. The pairs lie side by side, so that only
// the names themselves are read here and there.
template <typename Text, typename Order>
static void measure_texts(const char *title, const std::vector<Text> &lefts, const std::vector<Text> &rights, Order order) {
    std::vector<std::pair<Text, Text>> pairs;
    for (size_t i = 0; i < rights.size(); ++i) pairs.emplace_back(lefts[i], rights[i]);
    const double seconds = best([&] {
        for (const auto &[left, right] : pairs) {
            UErrorCode error = U_ZERO_ERROR;
            sum += order(left, right, error);
        }
    });
    printf("%s %.0f\n", title, pairs.size() / seconds);
}

template <typename Text> static std::vector<Text> at_places(const std::vector<Text> &names, const std::vector<size_t> &places) {
    std::vector<Text> found;
    for (const auto place : places) found.push_back(names[place]);
    return found;
}

static void measure_pairs(const icu::Collator &collator, const char *title, const Names &names,
                          const std::vector<size_t> &lefts, const std::vector<size_t> &rights, bool is_utf16) {
    if (is_utf16) {
        measure_texts(title, at_places(names.units, lefts), at_places(names.units, rights),
                      [&](Units left, Units right, UErrorCode &error) {
                          return collator.compare(left.data(), left.size(), right.data(), right.size(), error);
                      });
    } else {
        measure_texts(title, at_places(names.lines, lefts), at_places(names.lines, rights),
                      [&](Bytes left, Bytes right, UErrorCode &error) { return collator.compareUTF8(left, right, error); });
    }
}

// The places of the names in the order of their keys.
static std::vector<size_t> in_order(const icu::Collator &collator, const Names &names) {
    std::vector<std::pair<std::string, size_t>> keys;
    for (size_t i = 0; i < names.units.size(); ++i) {
        uint8_t key[KEY_ROOM];
        const int length = write_key(collator, names.units[i], key);
        keys.emplace_back(std::string(reinterpret_cast<char *>(key), std::min(length, KEY_ROOM)), i);
    }
    std::sort(keys.begin(), keys.end());
    std::vector<size_t> places;
    for (const auto &key : keys) places.push_back(key.second);
    return places;
}

// The form that a task names, or none.
static const icu::Normalizer2 *form_of(const std::string &task) {
    UErrorCode status = U_ZERO_ERROR;
    const auto name = task.substr(task.rfind("is_", 0) == 0 ? 3 : 0);
    const auto form = name.substr(0, name.find('_'));
    if (form == "nfc") return icu::Normalizer2::getNFCInstance(status);
    if (form == "nfd") return icu::Normalizer2::getNFDInstance(status);
    if (form == "nfkc") return icu::Normalizer2::getNFKCInstance(status);
    return form == "nfkd" ? icu::Normalizer2::getNFKDInstance(status) : nullptr;
}

// One line's form, or whether it is in the form.
static void bring(const icu::Normalizer2 &form, const Names &names, size_t i, bool is_question, bool is_utf16) {
    UErrorCode status = U_ZERO_ERROR;
    if (is_utf16) {
        const UnicodeString text(false, names.units[i].data(), names.units[i].size());
        UnicodeString out;
        if (is_question) sum += form.isNormalized(text, status);
        else form.normalize(text, out, status);
    } else if (is_question) {
        sum += form.isNormalizedUTF8(names.lines[i], status);
    } else {
        std::string out;
        icu::StringByteSink<std::string> sink(&out);
        form.normalizeUTF8(0, names.lines[i], sink, nullptr, status);
    }
}

static bool measure_form(const Names &names, const std::string &task) {
    const auto *form = form_of(task);
    if (!form) return false;
    const bool is_question = task.rfind("is_", 0) == 0, is_utf16 = task.find("_utf16") != std::string::npos;
    const double seconds = best([&] {
        for (size_t i = 0; i < names.lines.size(); ++i) bring(*form, names, i, is_question, is_utf16);
    });
    printf("%s %.0f\n", task.c_str(), names.lines.size() / seconds);
    return true;
}

static bool measure(const icu::Collator &collator, const Names &names, std::string task) {
    if (measure_form(names, task)) return true;
    const bool is_utf16 = task.size() > 2 && task.substr(task.size() - 2) == "16";
    if (is_utf16) task.resize(task.size() - 2);
    const bool is_all = task == "names";
    if (!is_all && task != "keys" && task != "random" && task != "near") return false;
    const size_t n = names.lines.size();
    if ((is_all || task == "keys") && !is_utf16) measure_keys(collator, names);
    if ((is_all || task == "keys") && is_utf16) measure_unit_keys(collator, "keys", names);
    if (is_all && !is_utf16) measure_unit_keys(collator, "keys_units", names);
    if (is_all || task == "random") {
        std::vector<size_t> lefts, rights;
        for (size_t i = 0; i < n; ++i) lefts.push_back(i), rights.push_back((i * 7919 + 13) % n);
        measure_pairs(collator, "cmp_random", names, lefts, rights, is_utf16);
    }
    if (is_all || task == "near") {
        const auto places = in_order(collator, names);
        measure_pairs(collator, "cmp_near", names, places, {places.begin() + (n ? 1 : 0), places.end()}, is_utf16);
    }
    return true;
}

static void measure_elements(const icu::RuleBasedCollator &collator, const Names &names, double units) {
    const double seconds = best([&] {
        std::unique_ptr<icu::CollationElementIterator> elements(collator.createCollationElementIterator(UnicodeString()));
        for (const auto &text : names.units) {
            UErrorCode error = U_ZERO_ERROR;
            elements->setText(UnicodeString(false, text.data(), text.size()), error);
            while (elements->next(error) != icu::CollationElementIterator::NULLORDER) ++sum;
        }
    });
    printf("elements %.1f million characters\n", units / seconds / 1e6);
}

int main(int count, char **words) {
    if (count != 2 && count < 5) return 2;
    Names names;
    read(words[1], names);
    UErrorCode status = U_ZERO_ERROR;
    const bool is_root = count == 2 || std::string(words[2]) == "root";
    const auto locale = is_root ? icu::Locale::getRoot() : icu::Locale(words[2]);
    std::unique_ptr<icu::Collator> collator(icu::Collator::createInstance(locale, status));
    auto *by_rules = dynamic_cast<icu::RuleBasedCollator *>(collator.get());
    if (U_FAILURE(status) || !by_rules) return 1;
    for (int word = 5; word < count; ++word)
        if (!set_option(*collator, words[word])) return 2;
    if (count > 2) rounds = atoi(words[4]);
    if (!measure(*collator, names, count > 2 ? words[3] : "names")) return 2;
    if (count == 2) {
        double units = 0;
        for (const auto &text : names.units) units += text.size();
        measure_elements(*by_rules, names, units);
    }
    return sum == 42;
}
