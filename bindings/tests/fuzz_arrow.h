/* Arrays of Arrow from the fuzzer's bytes whose values are converted, compared with numbers of 128 bits. What
 * the library reads and writes ends before a page without access. */
#ifndef FUZZ_ARROW_H
#define FUZZ_ARROW_H

#include "fuzz_texts.h"

#include <stdlib.h>

__extension__ typedef __int128 wide;

/* What a format means: an integer of `width` bytes, times one number, by another. */
static const struct converted_format {
    const char *format;
    size_t width;
    int64_t times, parts;
    uint32_t kind;
} converted_formats[] = {
    {"tdm", 8, 1, 86400000, YK_DATE},
    {"tss:", 8, 1000000, 1, YK_TIMESTAMP},
    {"tsm:UTC", 8, 1000, 1, YK_TIMESTAMP},
    {"tsn:", 8, 1, 1000, YK_TIMESTAMP},
    {"d:4,2", 16, 1, 1, YK_DECIMAL(4, 2)},
    {"d:38,9", 16, 1, 1, YK_DECIMAL(18, 9)},
    {"d:9,0,32", 4, 1, 1, YK_DECIMAL(9, 0)},
    {"d:18,18,64", 8, 1, 1, YK_DECIMAL(18, 18)},
    {"d:40,3,256", 32, 1, 1, YK_DECIMAL(18, 3)},
};

/* Whether a value is one of the kind, and which. */
static bool is_converted(const struct converted_format *format, const uint8_t *at, int64_t *made) {
    wide value = at[format->width - 1] & 0x80 ? -1 : 0, most = 1;
    for (size_t i = format->width < 16 ? format->width : 16; i-- > 0;)
        value = value * 256 + at[i];
    for (size_t i = 16; i < format->width; i++)
        if (at[i] != (value < 0 ? 0xff : 0))
            return false;
    if (value % format->parts != 0)
        return false;
    /* of 128 bits, so that no product of 64 by 20 bits overflows */
    if (value > INT64_MAX || value < INT64_MIN)
        return false;
    value = value / format->parts * format->times;
    *made = (int64_t)value;
    for (uint32_t i = 0; format->kind % 256 == YK_DECIMAL64 && i < YK_DECIMAL_PRECISION(format->kind); i++)
        most *= 10;
    if (most > 1)
        return value < most && value > -most;
    return format->kind == YK_DATE ? value >= INT32_MIN && value <= INT32_MAX : value >= INT64_MIN && value <= INT64_MAX;
}

/* Bytes that are often whole values, and often at an end of their range. */
static void fill_values(struct given *given, const struct converted_format *format, uint8_t *to, size_t rows) {
    for (size_t i = 0; i < rows; i++) {
        uint8_t bytes[32];
        unsigned form = next(given) % 8;
        int64_t low = (int8_t)next(given) * format->parts + (form == 7);
        if (form == 5)
            low = (int64_t)((uint64_t)next(given) << 56 | (uint64_t)next(given) << 48) / format->parts * format->parts;
        if (form == 6)
            low = INT64_MAX / format->times - (int8_t)next(given);
        memset(bytes, low < 0 ? 0xff : 0, sizeof bytes);
        memcpy(bytes, &low, sizeof low);
        if (form == 4)
            bytes[next(given) % 32] ^= next(given);
        memcpy(to + i * format->width, bytes, format->width);
    }
}

/* Converts an array, and compares it; `guard` gives memory that ends before a page without access. */
static void convert_values(struct given *given, void *(*guard)(size_t)) {
    const struct converted_format *format = &converted_formats[next(given) % (sizeof converted_formats / sizeof *converted_formats)];
    size_t offset = below(given, 20), rows = below(given, 40), expected = 0;
    uint8_t *values = guard((offset + rows) * format->width), *validity = guard((offset + rows) / 8 + ((offset + rows) % 8 != 0));
    const void *buffers[2] = {next(given) % 2 ? validity : NULL, values};
    struct ArrowSchema schema = {.format = format->format, .name = "v", .flags = ARROW_FLAG_NULLABLE};
    struct ArrowArray array = {.length = (int64_t)rows, .offset = (int64_t)offset, .null_count = -1, .n_buffers = 2, .buffers = buffers};
    struct yk_column column;
    char message[60];
    struct yk_error error = {.message = {message, sizeof message}};
    fill_values(given, format, values, offset + rows);
    for (size_t i = 0; i < offset + rows; i += 8)
        validity[i / 8] = (uint8_t)next(given);
    size_t count = yk_arrow_buffer_count(&schema, &array);
    uint32_t status = yk_arrow_column(&schema, &array, guard(count * sizeof(struct yk_bytes)), &column, &error);
    for (; expected < rows; expected++) {
        size_t at = offset + expected;
        int64_t made = 0;
        if (buffers[0] && !(validity[at / 8] >> at % 8 & 1))
            continue;
        if (!is_converted(format, values + at * format->width, &made))
            break;
        size_t item = column.offset + expected;
        if (!status && (column.kind == YK_DATE ? column.i32.at[item] : column.i64.at[item]) != made)
            abort();
        if (!status && buffers[0] && !(column.validity.at[item / 8] >> item % 8 & 1))
            abort();
    }
    if (status ? status != YK_UNTAKEN_VALUE || error.row != expected
               : expected != rows || column.kind != format->kind || column.rows != rows)
        abort();
}

#endif
