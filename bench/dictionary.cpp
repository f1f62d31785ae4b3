// The dictionary's calls beside C++, for comparison only: nothing of the C++ is proved. std::sort and std::unique over string_view, std::lower_bound, and a
// checker of the same things that the test of a dictionary looks at. What they find is compared with what the calls answer.
#include <algorithm>
#include <cstdio>
#include <cstdlib>
#include <cstring>
#include <ctime>
#include <random>
#include <string>
#include <string_view>
#include <vector>

extern "C" {
#include "sotjarn.h"
#ifdef SEARCH_THERE
size_t search_alone(const uint8_t *bytes, size_t bytes_len, const uint32_t *ends, size_t ends_len, const uint8_t *sought, size_t sought_len);
#endif
}

namespace {

using std::string_view;
constexpr size_t count = 200000;

double now()
{
    timespec t;
    clock_gettime(CLOCK_PROCESS_CPUTIME_ID, &t);
    return 1e3 * t.tv_sec + 1e-6 * t.tv_nsec;
}

template <class Work> void timed(double &least, Work work)
{
    double start = now();
    work();
    least = std::min(least, now() - start);
}

struct Strings {
    std::vector<uint8_t> bytes;
    std::vector<uint32_t> ends;

    void add(const std::string &s)
    {
        bytes.insert(bytes.end(), s.begin(), s.end());
        ends.push_back(static_cast<uint32_t>(bytes.size()));
    }
    string_view at(size_t i) const
    {
        size_t start = i ? ends[i - 1] : 0;
        return {reinterpret_cast<const char *>(bytes.data()) + start, ends[i] - start};
    }
    std::vector<string_view> views() const
    {
        std::vector<string_view> all(ends.size());
        for (size_t i = 0; i < all.size(); i++)
            all[i] = at(i);
        return all;
    }
};

// ---- the check

bool in_iri[256];

bool is_ascii(const uint8_t *p, size_t n)
{
    uint64_t all = 0, word;
    size_t i = 0;
    for (; i + 8 <= n; i += 8) {
        memcpy(&word, p + i, 8);
        all |= word;
    }
    for (; i < n; i++)
        all |= p[i];
    return !(all & 0x8080808080808080);
}

bool trails(uint8_t b) { return (b & 0xC0) == 0x80; }

// Eight bytes of ASCII at once, else a character.
bool is_formed(string_view s)
{
    const uint8_t *p = reinterpret_cast<const uint8_t *>(s.data()), *end = p + s.size();
    while (p < end) {
        if (end - p >= 8) {
            uint64_t word;
            memcpy(&word, p, 8);
            if (!(word & 0x8080808080808080)) {
                p += 8;
                continue;
            }
        }
        uint8_t a = *p;
        if (a < 0x80) {
            p++;
        } else if (a < 0xE0) {
            if (a < 0xC2 || end - p < 2 || !trails(p[1]))
                return false;
            p += 2;
        } else if (a < 0xF0) {
            if (end - p < 3 || p[1] < (a == 0xE0 ? 0xA0 : 0x80) || p[1] > (a == 0xED ? 0x9F : 0xBF) || !trails(p[2]))
                return false;
            p += 3;
        } else {
            if (a > 0xF4 || end - p < 4 || p[1] < (a == 0xF0 ? 0x90 : 0x80) || p[1] > (a == 0xF4 ? 0x8F : 0xBF) || !trails(p[2]) || !trails(p[3]))
                return false;
            p += 4;
        }
    }
    return true;
}

bool is_right(bool names, const Strings &d)
{
    uint32_t last = 0;
    if (d.ends.size() > SOTJARN_MOST_STRINGS)
        return false;
    for (uint32_t end : d.ends) {
        if (end < last)
            return false;
        last = end;
    }
    if (last != d.bytes.size())
        return false;
    const bool plain = is_ascii(d.bytes.data(), d.bytes.size());
    if (names) {
        bool good = true;
        for (uint8_t b : d.bytes)
            good &= in_iri[b];
        if (!good)
            return false;
    }
    string_view before;
    for (size_t i = 0; i < d.ends.size(); i++) {
        string_view s = d.at(i);
        if ((names && s.empty()) || (!plain && !is_formed(s)) || (i && !(before < s)))
            return false;
        before = s;
    }
    return true;
}

// ---- numbering, all of it: the dictionary and the number of each string

struct Placed {
    string_view s;
    uint32_t place;
};

size_t number_all(const Strings &given, Strings &own, std::vector<uint32_t> &numbers)
{
    std::vector<Placed> sorted(given.ends.size());
    for (size_t i = 0; i < sorted.size(); i++)
        sorted[i] = {given.at(i), static_cast<uint32_t>(i)};
    std::sort(sorted.begin(), sorted.end(), [](const Placed &a, const Placed &b) { return a.s < b.s; });
    size_t filled = 0, n = 0;
    for (size_t k = 0; k < sorted.size(); k++) {
        if (k == 0 || sorted[k].s != sorted[k - 1].s) {
            memcpy(own.bytes.data() + filled, sorted[k].s.data(), sorted[k].s.size());
            filled += sorted[k].s.size();
            own.ends[n++] = static_cast<uint32_t>(filled);
        }
        numbers[sorted[k].place] = static_cast<uint32_t>(n - 1);
    }
    return n;
}

[[noreturn]] void differ(const char *what)
{
    fprintf(stderr, "%s differs\n", what);
    exit(1);
}

// ---- strings

enum Way { DIGITS, ALIKE, LAST, UMLAUTS, WOOD };

std::string drawn(Way way, uint32_t x)
{
    static const char letters[] = "ABCDEFGHIJKLMNOPQRSTUVWXYZabcdefghijklmnopqrstuvwxyz0123456789-_";
    char text[64];
    switch (way) {
    case DIGITS:
        snprintf(text, sizeof text, "http://ex/%010u", x % 4000000000u);
        break;
    case ALIKE:
        snprintf(text, sizeof text, "http://example/s/%c%c%c", letters[x % 64], letters[x / 64 % 64], letters[x / 4096 % 64]);
        break;
    case LAST:
        snprintf(text, sizeof text, "http://example/stem%c", letters[x % 64]);
        break;
    case UMLAUTS:
        snprintf(text, sizeof text, "St\u00e4mme:F\u00f6hre%06u", x % 1000000u);
        break;
    case WOOD:
        snprintf(text, sizeof text, "\u6728\u6750/\u6a05%010u", x % 4000000000u);
        break;
    }
    return text;
}

void measure(const char *name, Way way, uint32_t kind, int rounds)
{
    std::mt19937 random(7);
    Strings given, own, cpp;
    for (size_t i = 0; i < count; i++)
        given.add(drawn(way, static_cast<uint32_t>(random())));
    cpp.bytes.resize(given.bytes.size());
    std::vector<uint32_t> numbers(count), places(count), cpp_numbers(count);
    double unique = 1e9, all = 1e9, number = 1e9, bound = 1e9, search = 1e9, cpp_check = 1e9, check = 1e9;
    for (int round = 0; round < rounds; round++) {
        std::vector<string_view> views;
        timed(unique, [&] {
            views = given.views();
            std::sort(views.begin(), views.end());
            views.erase(std::unique(views.begin(), views.end()), views.end());
        });
        size_t n = 0;
        cpp.bytes.resize(given.bytes.size());
        cpp.ends.resize(count);
        timed(all, [&] { n = number_all(given, cpp, cpp_numbers); });
        own.bytes.resize(given.bytes.size());
        own.ends.resize(count);
        sotjarn_numbered made{};
        timed(number, [&] {
            made = sotjarn_number(kind, given.bytes.data(), given.bytes.size(), given.ends.data(), count, own.bytes.data(), own.bytes.size(), own.ends.data(),
                                  count, numbers.data(), count, places.data(), count);
        });
        own.bytes.resize(made.bytes);
        own.ends.resize(made.strings);
        cpp.ends.resize(n);
        cpp.bytes.resize(n ? cpp.ends[n - 1] : 0);
        if (made.refused || own.bytes != cpp.bytes || own.ends != cpp.ends || numbers != cpp_numbers || own.views() != views)
            differ("what is numbered");
        bool right = false, passes = false;
        timed(cpp_check, [&] { right = is_right(kind == SOTJARN_NAMES, own); });
        timed(check, [&] { // a number past the last is asked for: nothing but the check is left
            sotjarn_bounds bounds = sotjarn_string(kind, own.bytes.data(), own.bytes.size(), own.ends.data(), own.ends.size(), own.ends.size());
            passes = !bounds.refused && !bounds.present;
        });
        if (!right || !passes)
            differ("the check");
        size_t sum = 0;
        std::vector<string_view> sorted = own.views();
        timed(bound, [&] {
            for (size_t i = 0; i < count; i++)
                sum += static_cast<size_t>(std::lower_bound(sorted.begin(), sorted.end(), given.at(i)) - sorted.begin());
        });
#ifdef SEARCH_THERE
        size_t found = 0;
        timed(search, [&] {
            for (size_t i = 0; i < count; i++) {
                string_view s = given.at(i);
                found += search_alone(own.bytes.data(), own.bytes.size(), own.ends.data(), own.ends.size(),
                                      reinterpret_cast<const uint8_t *>(s.data()), s.size());
            }
        });
        if (found != sum)
            differ("what is found");
#endif
    }
    printf("%s\t%zu\t%.4f\t%.4f\t%.4f\t%.4f\t%.4f\t%.4f\t%.4f\n", name, own.ends.size(), unique, all, number, bound, search < 1e9 ? search : 0,
           cpp_check, check);
    fflush(stdout);
}

} // namespace

int main(int words, char **word)
{
    const int rounds = words > 1 ? atoi(word[1]) : 1;
    for (int b = 0; b < 256; b++)
        in_iri[b] = b > 0x20 && !strchr("\"<>\\^`{|}", b);
    measure("names, 10 bytes in common", DIGITS, SOTJARN_NAMES, rounds);
    measure("texts, 10 bytes in common", DIGITS, SOTJARN_TEXTS, rounds);
    measure("texts, alike up to the last three bytes", ALIKE, SOTJARN_TEXTS, rounds);
    measure("texts, alike up to the last byte", LAST, SOTJARN_TEXTS, rounds);
    measure("texts with umlauts", UMLAUTS, SOTJARN_TEXTS, rounds);
    measure("texts with characters of three bytes", WOOD, SOTJARN_TEXTS, rounds);
    return 0;
}
