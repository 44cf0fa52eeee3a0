/* Values that Arrow's formats hold in another form than the library: decimals of 32, 128 and 256 bits, days of
 * milliseconds, times of seconds, milliseconds and nanoseconds. Each is converted, once, into the caller's room. */
#include "yurkije_arrow_shared.h"

#include <stdlib.h>
#include <string.h>

size_t yk_made_count(const struct layout *layout, const struct ArrowArray *array) {
    if (!layout->made || array->length < 0 || array->offset < 0 || array->length > INT64_MAX / 64)
        return 0;
    size_t bytes = ((size_t)(array->offset % 8) + (size_t)array->length) * layout->made;
    return bytes / sizeof(struct yk_bytes) + (bytes % sizeof(struct yk_bytes) != 0);
}

/* Reads a whole number of that many bytes, the lowest first. False if 64 bits do not hold it. */
static bool read_value(const uint8_t *at, size_t width, int64_t *value) {
    int64_t word;
    int32_t half;
    if (width == sizeof half) {
        memcpy(&half, at, sizeof half);
        *value = half;
        return true;
    }
    memcpy(value, at, sizeof *value);
    for (size_t i = sizeof word; i < width; i += sizeof word) {
        memcpy(&word, at + i, sizeof word);
        if (word != (*value < 0 ? -1 : 0))
            return false;
    }
    return true;
}

/* The greatest value of a kind, of which the least is the opposite, or one less. */
static int64_t greatest(uint32_t kind) {
    int64_t power = 1;
    if (kind == YK_DATE)
        return INT32_MAX;
    if (kind == YK_TIMESTAMP)
        return INT64_MAX;
    for (uint32_t i = 0; i < YK_DECIMAL_PRECISION(kind); i++)
        power *= 10;
    return power - 1;
}

/* What the values of one format are converted by. */
struct conversion {
    const struct layout *layout;
    int64_t least, most;
};

/* Converts a value. False if the kind has none that is the same. */
static inline bool convert(
    const struct conversion *conversion, const uint8_t *at, size_t width, int64_t times, int64_t parts, int64_t *made) {
    int64_t value;
    return read_value(at, width, &value) && value % parts == 0 && !__builtin_mul_overflow(value / parts, times, made) &&
           *made >= conversion->least && *made <= conversion->most;
}

/* Each format with its numbers written out, so that the compiler divides by a constant. */
static bool convert_one(const struct conversion *conversion, const uint8_t *at, int64_t *made) {
    const struct layout *layout = conversion->layout;
    if (layout->width != sizeof(int64_t) || (layout->times == 1 && layout->parts == 1))
        return convert(conversion, at, layout->width, 1, 1, made);
    if (layout->parts == 1)
        return convert(conversion, at, sizeof(int64_t), layout->times, 1, made);
    if (layout->parts == 1000)
        return convert(conversion, at, sizeof(int64_t), 1, 1000, made);
    return convert(conversion, at, sizeof(int64_t), 1, YK_MILLISECONDS_OF_DAY, made);
}

static inline bool is_valid(const struct yk_column *column, size_t item) {
    return column->validity.length == 0 || (column->validity.at[item / 8] >> item % 8 & 1);
}

/* Reports a value that no value of the kind is. */
static uint32_t refuse_value(const struct layout *layout, const char *name, size_t row, const uint8_t *at, struct yk_error *error) {
    int64_t value = 0;
    uint32_t status;
    if (layout->kind == YK_DATE || layout->kind == YK_TIMESTAMP) {
        read_value(at, sizeof value, &value);
        status = yk_refuse(error, YK_UNTAKEN_VALUE, YK_NONE, "column \"%.200s\", row %zu: %lld of Arrow's format %.4s is no %s", name, row,
            (long long)value, layout->format, layout->kind == YK_DATE ? "whole day of 32 bits" : "whole microsecond of 64 bits");
    } else {
        status = yk_refuse(error, YK_UNTAKEN_VALUE, YK_NONE, "column \"%.200s\", row %zu: a decimal of more than %u digits", name, row,
            YK_DECIMAL_PRECISION(layout->kind));
    }
    error->row = row;
    return status;
}

uint32_t yk_make_values(const struct layout *layout, const struct ArrowArray *array, const char *name, struct yk_bytes *room,
    struct yk_column *column, struct yk_error *error) {
    int64_t most = greatest(layout->kind);
    const struct conversion conversion = {layout, layout->kind % 256 == YK_DECIMAL64 ? -most : -most - 1, most};
    const uint8_t *at = (const uint8_t *)array->buffers[1] + (size_t)array->offset * layout->width;
    uint8_t *to = (uint8_t *)room;
    size_t first = (size_t)(array->offset % 8), end = first + column->rows;
    if (column->validity.length > 0)
        column->validity = (struct yk_bytes){column->validity.at + array->offset / 8, yk_bytes_for(end)};
    column->offset = first;
    memset(to, 0, first * layout->made);
    for (size_t item = first; item < end; item++, at += layout->width) {
        int64_t made = 0;
        if (is_valid(column, item) && !convert_one(&conversion, at, &made))
            return refuse_value(layout, name, item - first, at, error);
        int32_t narrow = (int32_t)made;
        memcpy(to + item * layout->made, layout->made == 4 ? (const void *)&narrow : &made, layout->made);
    }
    yk_set_values(to, column);
    return YK_OK;
}

/* From the last on, so that none is overwritten before it is read. */
void yk_widen_decimals(uint8_t *values, size_t rows) {
    for (size_t i = rows; i-- > 0;) {
        int64_t words[2];
        memcpy(words, values + i * sizeof *words, sizeof *words);
        words[1] = words[0] < 0 ? -1 : 0;
        memcpy(values + i * sizeof words, words, sizeof words);
    }
}
