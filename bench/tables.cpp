// Tables from an upload in C++, by std::stable_sort, for comparison only: nothing of it is proved. The whole job of the call: rows are
// judged, sorted, repeats dropped, both lists of row numbers sorted, and the report written.
#include "tables.h"

#include <algorithm>
#include <numeric>
#include <vector>

namespace {

constexpr size_t columns = 4, terms = 3;
constexpr size_t most_rows = 65536;
enum : uint8_t { kept, wrong_kind, repeat };

// The order of rows by their year and their terms from one on.
template <size_t first> struct Before {
    const uint32_t *rows;

    bool operator()(uint32_t a, uint32_t b) const
    {
        constexpr size_t one = 1 + first, second = 1 + (first + 1) % terms, third = 1 + (first + 2) % terms;
        const uint32_t *x = rows + columns * a, *y = rows + columns * b;
        if (x[0] != y[0])
            return x[0] < y[0];
        if (x[one] != y[one])
            return x[one] < y[one];
        return x[second] != y[second] ? x[second] < y[second] : x[third] < y[third];
    }
};

bool kinds_right(const uint32_t *row)
{
    const uint32_t year = row[0] & 0x3FFFFFFF;
    return row[0] >> 30 == 1 && year >= 1 && year <= 9999 && row[1] >> 30 == 0 && row[2] >> 30 == 0 && row[3] >> 30 != 3;
}

template <size_t first> void write_list(const uint32_t *rows, uint32_t *list, size_t count)
{
    std::iota(list, list + count, 0);
    std::stable_sort(list, list + count, Before<first>{rows});
}

} // namespace

extern "C" struct sotjarn_made cpp_make(const uint32_t *upload, size_t upload_len, uint32_t *rows, size_t rows_len, uint32_t *pos,
                                        size_t pos_len, uint32_t *osp, size_t osp_len, uint32_t *report, size_t report_len)
{
    const size_t count = upload_len / columns;
    if (upload_len % columns != 0 || count > most_rows)
        return {15, 0, 0, 0, 0};
    std::vector<uint32_t> list;
    std::vector<uint8_t> fates(count, kept);
    list.reserve(count);
    for (size_t row = 0; row < count; row++) {
        if (kinds_right(upload + columns * row))
            list.push_back(static_cast<uint32_t>(row));
        else
            fates[row] = wrong_kind;
    }
    std::stable_sort(list.begin(), list.end(), Before<0>{upload});
    for (size_t place = 1; place < list.size(); place++)
        if (!Before<0>{upload}(list[place - 1], list[place]))
            fates[list[place]] = repeat;
    const size_t many = static_cast<size_t>(std::count(fates.begin(), fates.end(), kept));
    if (rows_len < columns * many || pos_len < many || osp_len < many || report_len < 2 * (count - many))
        return {16, 0, 0, 0, 0};
    uint32_t *next = rows;
    for (uint32_t row : list)
        if (fates[row] == kept)
            next = std::copy_n(upload + columns * row, columns, next);
    write_list<1>(rows, pos, many);
    write_list<2>(rows, osp, many);
    uint32_t *told = report;
    for (size_t row = 0; row < count; row++)
        if (fates[row] != kept) {
            *told++ = static_cast<uint32_t>(row);
            *told++ = fates[row];
        }
    return {0, columns * many, many, many, 2 * (count - many)};
}

// A wood in C++: each stem's rows from two draws, and both lists sorted.
struct sotjarn_tables cpp_grow(uint32_t seed, uint32_t stems, uint32_t year, uint32_t *rows, size_t rows_len, uint32_t *pos, size_t pos_len,
                               uint32_t *osp, size_t osp_len)
{
    const size_t many = 2 * static_cast<size_t>(stems);
    const uint32_t number = 1u << 30;
    if (stems > 32768 || year < 1 || year > 9999)
        return {24, 0, 0, 0};
    if (rows_len < columns * many || pos_len < many || osp_len < many)
        return {25, 0, 0, 0};
    uint32_t *next = rows, x = seed;
    const auto draw = [&x] {
        x = 1664525u * x + 1013904223u;
        return x / 65536;
    };
    for (uint32_t stem = 0; stem < stems; stem++) {
        const uint32_t stand = draw() % 20, diameter = draw() % 600, name = 1000000 + stem;
        const uint32_t two[2 * columns] = {number | year, name, 10, 100 + stand, number | year, name, 12, number | (20 + diameter)};
        next = std::copy_n(two, 2 * columns, next);
    }
    write_list<1>(rows, pos, many);
    write_list<2>(rows, osp, many);
    return {0, columns * many, many, many};
}
