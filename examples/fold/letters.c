/* Text from outside, for a terminal. Visible and harmless characters stand for themselves, a
   backslash is doubled, and of all others each byte is \t, \r, \n or \xNN: what is seen says which
   bytes there are. */
#include <stdio.h>
#include <string.h>

#include "fold.h"

enum columns { NARROW, EITHER, WIDE };

/* Characters outside ASCII that are shown as themselves. EITHER is wide in some terminals. */
struct range {
    uint32_t first, last;
    enum columns columns;
};
static const struct range RANGES[] = {
#include "letters.inc"
};
enum { RANGE_COUNT = sizeof RANGES / sizeof *RANGES };

static bool ascii_only;

void show_ascii_only(void)
{
    ascii_only = true;
}

static const struct range *find_range(uint32_t letter)
{
    size_t low = 0, high = RANGE_COUNT;
    while (low < high) {
        size_t middle = low + (high - low) / 2;
        if (RANGES[middle].last < letter)
            low = middle + 1;
        else
            high = middle;
    }
    return low < RANGE_COUNT && RANGES[low].first <= letter ? &RANGES[low] : NULL;
}

/* How many bytes a character has that starts with this one: 2 to 4, else 0. */
static size_t length_of(uint8_t first)
{
    if (first >= 0xC2 && first <= 0xDF)
        return 2;
    if (first >= 0xE0 && first <= 0xEF)
        return 3;
    return first >= 0xF0 && first <= 0xF4 ? 4 : 0;
}

/* The well-formed character outside ASCII at the start of the bytes, or 0. */
static uint32_t decode(const uint8_t *bytes, size_t length, size_t *taken)
{
    static const uint32_t LEAST[] = { 0, 0, 0x80, 0x800, 0x10000 };
    size_t needed = length_of(bytes[0]);
    if (needed == 0 || needed > length)
        return 0;
    uint32_t letter = bytes[0] & (0x7Fu >> needed);
    for (size_t i = 1; i < needed; i++) {
        if ((bytes[i] & 0xC0) != 0x80)
            return 0;
        letter = letter << 6 | (bytes[i] & 0x3Fu);
    }
    bool surrogate = letter >= 0xD800 && letter <= 0xDFFF;
    *taken = needed;
    return letter >= LEAST[needed] && letter <= 0x10FFFF && !surrogate ? letter : 0;
}

static struct unit escaped(uint8_t byte)
{
    struct unit unit = { .taken = 1 };
    switch (byte) {
    case '\\': strcpy(unit.text, "\\\\"); break;
    case '\t': strcpy(unit.text, "\\t"); break;
    case '\r': strcpy(unit.text, "\\r"); break;
    case '\n': strcpy(unit.text, "\\n"); break;
    default: snprintf(unit.text, sizeof unit.text, "\\x%02X", (unsigned)byte);
    }
    unit.length = strlen(unit.text);
    unit.columns = unit.usual = (unsigned)unit.length;
    return unit;
}

struct unit next_unit(const uint8_t *bytes, size_t length)
{
    struct unit unit = { .taken = 1, .length = 1, .columns = 1, .usual = 1 };
    if (bytes[0] >= 0x20 && bytes[0] <= 0x7E && bytes[0] != '\\') {
        unit.text[0] = (char)bytes[0];
        return unit;
    }
    uint32_t letter = ascii_only ? 0 : decode(bytes, length, &unit.taken);
    const struct range *range = letter == 0 ? NULL : find_range(letter);
    if (range == NULL)
        return escaped(bytes[0]);
    unit.length = unit.taken;
    memcpy(unit.text, bytes, unit.taken);
    unit.columns = range->columns == NARROW ? 1 : 2;
    unit.usual = range->columns == WIDE ? 2 : 1;
    return unit;
}
