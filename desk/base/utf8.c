#include "base/utf8.h"

struct range {
    uint32_t first, last;
};

static bool in_ranges(const struct range *ranges, size_t count, uint32_t point)
{
    size_t low = 0, high = count;
    while (low < high) {
        size_t middle = low + (high - low) / 2;
        if (point < ranges[middle].first)
            high = middle;
        else if (point > ranges[middle].last)
            low = middle + 1;
        else
            return true;
    }
    return false;
}

#define IN(ranges, point) in_ranges(ranges, sizeof ranges / sizeof *ranges, point)

/* How many bytes follow a first byte, and the bits of the point that it has; false for no first
 * byte. `least` is the lowest point that needs so many. */
static bool first_byte(uint8_t byte, size_t *more, uint32_t *bits, uint32_t *least)
{
    if (byte < 0x80) {
        *more = 0, *bits = byte, *least = 0;
    } else if (byte >= 0xC2 && byte < 0xE0) {
        *more = 1, *bits = byte & 0x1Fu, *least = 0x80;
    } else if (byte >= 0xE0 && byte < 0xF0) {
        *more = 2, *bits = byte & 0x0Fu, *least = 0x800;
    } else if (byte >= 0xF0 && byte < 0xF5) {
        *more = 3, *bits = byte & 0x07u, *least = 0x10000;
    } else {
        return false;
    }
    return true;
}

size_t utf8_next(const char *bytes, size_t len, uint32_t *point)
{
    size_t more;
    uint32_t bits, least;
    if (len == 0 || !first_byte((uint8_t)bytes[0], &more, &bits, &least) || len <= more)
        return 0;
    for (size_t at = 1; at <= more; at++) {
        uint8_t byte = (uint8_t)bytes[at];
        if ((byte & 0xC0u) != 0x80u)
            return 0;
        bits = bits << 6 | (byte & 0x3Fu);
    }
    if (bits < least || bits > 0x10FFFF || (bits >= 0xD800 && bits <= 0xDFFF))
        return 0;
    *point = bits;
    return more + 1;
}

bool utf8_printable(uint32_t point)
{
    static const struct range hidden[] = {
        { 0x0000, 0x001F }, { 0x007F, 0x009F }, { 0x061C, 0x061C }, { 0x200E, 0x200F },
        { 0x2028, 0x202E }, { 0x2066, 0x2069 }, { 0xFDD0, 0xFDEF }, { 0xFEFF, 0xFEFF },
        { 0xFFF9, 0xFFFB }, { 0xE0000, 0xE007F },
    };
    return !IN(hidden, point) && (point & 0xFFFEu) != 0xFFFEu;
}

size_t utf8_put(const char *bytes, size_t len, struct text *text)
{
    uint32_t point;
    size_t step = utf8_next(bytes, len, &point);
    if (step > 0 && utf8_printable(point))
        text_add(text, bytes, step);
    else
        text_byte(text, '?');
    return step > 0 ? step : 1;
}

size_t utf8_count(const char *bytes, size_t len)
{
    size_t count = 0;
    for (size_t at = 0; at < len; count++) {
        uint32_t point;
        size_t step = utf8_next(bytes + at, len - at, &point);
        at += step > 0 ? step : 1;
    }
    return count;
}

/* The combining marks of the scripts that are likely in names, and what joins or selects emoji. */
static const struct range combining[] = {
    { 0x0300, 0x036F },   { 0x0483, 0x0489 },   { 0x0591, 0x05BD },   { 0x05BF, 0x05BF },
    { 0x05C1, 0x05C2 },   { 0x05C4, 0x05C5 },   { 0x05C7, 0x05C7 },   { 0x0610, 0x061A },
    { 0x064B, 0x065F },   { 0x0670, 0x0670 },   { 0x06D6, 0x06DC },   { 0x06DF, 0x06E4 },
    { 0x06E7, 0x06E8 },   { 0x06EA, 0x06ED },   { 0x0900, 0x0902 },   { 0x093A, 0x093A },
    { 0x093C, 0x093C },   { 0x0941, 0x0948 },   { 0x094D, 0x094D },   { 0x0951, 0x0957 },
    { 0x0E31, 0x0E31 },   { 0x0E34, 0x0E3A },   { 0x0E47, 0x0E4E },   { 0x1AB0, 0x1AFF },
    { 0x1DC0, 0x1DFF },   { 0x200B, 0x200D },   { 0x20D0, 0x20F0 },   { 0x302A, 0x302D },
    { 0x3099, 0x309A },   { 0xFE00, 0xFE0F },   { 0xFE20, 0xFE2F },   { 0x1F3FB, 0x1F3FF },
    { 0xE0100, 0xE01EF },
};

static const struct range wide[] = {
    { 0x1100, 0x115F },   { 0x231A, 0x231B },   { 0x2329, 0x232A },   { 0x23E9, 0x23EC },
    { 0x23F0, 0x23F0 },   { 0x23F3, 0x23F3 },   { 0x25FD, 0x25FE },   { 0x2614, 0x2615 },
    { 0x2648, 0x2653 },   { 0x267F, 0x267F },   { 0x2693, 0x2693 },   { 0x26A1, 0x26A1 },
    { 0x26AA, 0x26AB },   { 0x26BD, 0x26BE },   { 0x26C4, 0x26C5 },   { 0x26CE, 0x26CE },
    { 0x26D4, 0x26D4 },   { 0x26EA, 0x26EA },   { 0x26F2, 0x26F3 },   { 0x26F5, 0x26F5 },
    { 0x26FA, 0x26FA },   { 0x26FD, 0x26FD },   { 0x2705, 0x2705 },   { 0x270A, 0x270B },
    { 0x2728, 0x2728 },   { 0x274C, 0x274C },   { 0x274E, 0x274E },   { 0x2753, 0x2755 },
    { 0x2757, 0x2757 },   { 0x2795, 0x2797 },   { 0x27B0, 0x27B0 },   { 0x27BF, 0x27BF },
    { 0x2B1B, 0x2B1C },   { 0x2B50, 0x2B50 },   { 0x2B55, 0x2B55 },   { 0x2E80, 0x303E },
    { 0x3041, 0x33FF },   { 0x3400, 0x4DBF },   { 0x4E00, 0x9FFF },   { 0xA000, 0xA4CF },
    { 0xA960, 0xA97F },   { 0xAC00, 0xD7A3 },   { 0xF900, 0xFAFF },   { 0xFE10, 0xFE19 },
    { 0xFE30, 0xFE6F },   { 0xFF00, 0xFF60 },   { 0xFFE0, 0xFFE6 },   { 0x16FE0, 0x18AFF },
    { 0x1B000, 0x1B2FF }, { 0x1F004, 0x1F004 }, { 0x1F0CF, 0x1F0CF }, { 0x1F18E, 0x1F18E },
    { 0x1F191, 0x1F19A }, { 0x1F200, 0x1F320 }, { 0x1F32D, 0x1F335 }, { 0x1F337, 0x1F37C },
    { 0x1F37E, 0x1F393 }, { 0x1F3A0, 0x1F3CA }, { 0x1F3CF, 0x1F3D3 }, { 0x1F3E0, 0x1F3F0 },
    { 0x1F3F4, 0x1F3F4 }, { 0x1F3F8, 0x1F43E }, { 0x1F440, 0x1F440 }, { 0x1F442, 0x1F4FC },
    { 0x1F4FF, 0x1F53D }, { 0x1F54B, 0x1F54E }, { 0x1F550, 0x1F567 }, { 0x1F57A, 0x1F57A },
    { 0x1F595, 0x1F596 }, { 0x1F5A4, 0x1F5A4 }, { 0x1F5FB, 0x1F64F }, { 0x1F680, 0x1F6C5 },
    { 0x1F6CC, 0x1F6CC }, { 0x1F6D0, 0x1F6D2 }, { 0x1F6D5, 0x1F6D7 }, { 0x1F6DD, 0x1F6DF },
    { 0x1F6EB, 0x1F6EC }, { 0x1F6F4, 0x1F6FC }, { 0x1F7E0, 0x1F7EB }, { 0x1F90C, 0x1F93A },
    { 0x1F93C, 0x1F945 }, { 0x1F947, 0x1F9FF }, { 0x1FA70, 0x1FAFF }, { 0x20000, 0x3FFFD },
};

unsigned utf8_columns_of(uint32_t point)
{
    return IN(combining, point) ? 0 : IN(wide, point) ? 2 : 1;
}

size_t utf8_columns(const char *bytes, size_t len)
{
    size_t columns = 0;
    for (size_t at = 0; at < len;) {
        uint32_t point = 0;
        size_t step = utf8_next(bytes + at, len - at, &point);
        columns += step > 0 ? utf8_columns_of(point) : 1;
        at += step > 0 ? step : 1;
    }
    return columns;
}

size_t utf8_fit(const char *bytes, size_t len, size_t columns)
{
    size_t at = 0, taken = 0;
    while (at < len) {
        uint32_t point = 0;
        size_t step = utf8_next(bytes + at, len - at, &point);
        taken += step > 0 ? utf8_columns_of(point) : 1;
        if (taken > columns)
            break;
        at += step > 0 ? step : 1;
    }
    return at;
}
