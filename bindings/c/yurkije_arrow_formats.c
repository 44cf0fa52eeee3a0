/* Arrow's formats: the kinds of their values, and in which layout they lie. */
#include "yurkije_arrow_shared.h"

#include <string.h>

enum { most_digits = 18 };

/* Those in which answers come out stand first. */
static const struct layout layouts[] = {
    {"b", YK_BOOL, 2, 0, 0, 0, 0},
    {"c", YK_I8, 2, 1, 0, 0, 0},
    {"s", YK_I16, 2, 2, 0, 0, 0},
    {"i", YK_I32, 2, 4, 0, 0, 0},
    {"l", YK_I64, 2, 8, 0, 0, 0},
    {"C", YK_U8, 2, 1, 0, 0, 0},
    {"S", YK_U16, 2, 2, 0, 0, 0},
    {"I", YK_U32, 2, 4, 0, 0, 0},
    {"L", YK_U64, 2, 8, 0, 0, 0},
    {"u", YK_UTF8, 3, 4, 0, 0, 0},
    {"U", YK_LARGE_UTF8, 3, 8, 0, 0, 0},
    {"z", YK_BINARY, 3, 4, 0, 0, 0},
    {"Z", YK_LARGE_BINARY, 3, 8, 0, 0, 0},
    {"vu", YK_UTF8_VIEW, 3, 1, 0, 0, 0},
    {"vz", YK_BINARY_VIEW, 3, 1, 0, 0, 0},
    {"g", YK_F64, 2, 8, 0, 0, 0},
    {"f", YK_F32, 2, 4, 0, 0, 0},
    {"tdD", YK_DATE, 2, 4, 0, 0, 0},
    {"tsu:", YK_TIMESTAMP, 2, 8, 0, 0, 0},
    {"tdm", YK_DATE, 2, 8, 4, 1, YK_MILLISECONDS_OF_DAY},
    {"tss:", YK_TIMESTAMP, 2, 8, 8, 1000000, 1},
    {"tsm:", YK_TIMESTAMP, 2, 8, 8, 1000, 1},
    {"tsn:", YK_TIMESTAMP, 2, 8, 8, 1, 1000},
};

/* Answers that are decimals, of 128 bits. */
static const struct layout decimals = {"d:", YK_DECIMAL64, 2, 16, 0, 0, 0};

static const size_t layout_count = sizeof layouts / sizeof *layouts;

/* Whether a format is that of a layout. Behind the colon of a timestamp's the name of a time zone may
 * stand: its values are instants of UTC. */
static bool is_format(const char *format, const struct layout *layout) {
    return layout->kind == YK_TIMESTAMP ? strncmp(format, layout->format, 4) == 0 : strcmp(format, layout->format) == 0;
}

/* Reads a number of at most three digits; NULL if there is none. */
static const char *read_number(const char *at, uint32_t *number) {
    const char *from = at;
    for (*number = 0; *at >= '0' && *at <= '9' && at - from < 3; at++)
        *number = 10 * *number + (uint32_t)(*at - '0');
    return at > from ? at : NULL;
}

/* Reads a format of decimals, `d:precision,scale` or `d:precision,scale,bits`. False if it is none that
 * is supported. */
static bool read_decimal(const char *format, struct layout *layout) {
    uint32_t precision = 0, scale = 0, bits = 128;
    const char *at = strncmp(format, "d:", 2) == 0 ? read_number(format + 2, &precision) : NULL;
    at = at && *at == ',' ? read_number(at + 1, &scale) : NULL;
    if (at && *at == ',')
        at = read_number(at + 1, &bits);
    if (!at || *at || precision == 0 || scale > most_digits || (bits != 32 && bits != 64 && bits != 128 && bits != 256))
        return false;
    uint32_t digits = precision > scale ? precision : scale;
    *layout = (struct layout){"d:", YK_DECIMAL(digits < most_digits ? digits : most_digits, scale), 2, bits / 8, 8, 1, 1};
    return true;
}

bool yk_layout_of_format(const char *format, struct layout *layout) {
    for (size_t i = 0; i < layout_count; i++)
        if (is_format(format, &layouts[i])) {
            *layout = layouts[i];
            return true;
        }
    return read_decimal(format, layout);
}

const struct layout *yk_layout_of_kind(uint32_t kind) {
    for (size_t i = 0; i < layout_count; i++)
        if (layouts[i].kind == kind)
            return &layouts[i];
    return kind % 256 == YK_DECIMAL64 ? &decimals : NULL;
}

/* The name of an unsupported format: the longest prefix that is listed here. */
const char *yk_format_name(const char *format) {
    static const char *const names[][2] = {
        {"n", "null"},
        {"e", "float16"},
        {"d:", "decimal of other bits, of more than 18 places, or of places before the point"},
        {"w:", "fixed-size binary"},
        {"tt", "time"},
        {"tD", "duration"},
        {"ti", "interval"},
        {"+l", "list"},
        {"+L", "large list"},
        {"+vl", "list view"},
        {"+vL", "large list view"},
        {"+w:", "fixed-size list"},
        {"+s", "struct"},
        {"+m", "map"},
        {"+ud:", "dense union"},
        {"+us:", "sparse union"},
        {"+r", "run-end encoded"},
    };
    for (size_t i = 0; i < sizeof names / sizeof *names; i++)
        if (strncmp(names[i][0], format, strlen(names[i][0])) == 0)
            return names[i][1];
    return "unknown";
}
