/* The calls of yurkije.h as a C program makes them: every kind in and out, errors with their
 * places, and wrong use. */
#include "check.h"

#include <math.h>

static const int8_t i8s[] = {1, -128, 127};
static const int16_t i16s[] = {1, -32768, 32767};
static const int32_t i32s[] = {1, INT32_MIN, INT32_MAX};
static const int64_t i64s[] = {1, INT64_MIN, INT64_MAX};
static const uint8_t u8s[] = {1, 0, 255};
static const uint16_t u16s[] = {1, 0, 65535};
static const uint32_t u32s[] = {1, 0, UINT32_MAX};
static const uint64_t u64s[] = {1, 0, UINT64_MAX};
static const uint8_t valid[] = {0x3}; /* the last of three rows is null */
static const char data[] = "nuta bolt of more than twelve bytes";
static const int32_t offsets32[] = {0, 3, 35, 35};
static const int64_t offsets64[] = {0, 3, 35, 35};
static uint8_t views[3][16] = {{3, 0, 0, 0, 'n', 'u', 't'}, {32, 0, 0, 0, 'a', ' ', 'b', 'o', 0, 0, 0, 0, 3}, {0}};
static const struct yk_bytes buffer = {(const uint8_t *)data, 35};

/* A column of three rows of that kind. */
static struct yk_column column(uint32_t kind) {
    struct yk_column made = {.kind = kind, .rows = 3, .nullable = true, .validity = {valid, 1}};
    switch (kind) {
    case YK_BOOL: made.bools = (struct yk_bytes){(const uint8_t *)"\x05", 1}; break;
    case YK_I8: made.i8 = (struct yk_i8s){i8s, 3}; break;
    case YK_I16: made.i16 = (struct yk_i16s){i16s, 3}; break;
    case YK_I32: made.i32 = (struct yk_i32s){i32s, 3}; break;
    case YK_I64: made.i64 = (struct yk_i64s){i64s, 3}; break;
    case YK_U8: made.u8 = (struct yk_bytes){u8s, 3}; break;
    case YK_U16: made.u16 = (struct yk_u16s){u16s, 3}; break;
    case YK_U32: made.u32 = (struct yk_u32s){u32s, 3}; break;
    case YK_U64: made.u64 = (struct yk_u64s){u64s, 3}; break;
    case YK_UTF8:
    case YK_BINARY:
        made.offsets32 = (struct yk_i32s){offsets32, 4};
        made.data = buffer;
        break;
    case YK_LARGE_UTF8:
    case YK_LARGE_BINARY:
        made.offsets64 = (struct yk_i64s){offsets64, 4};
        made.data = buffer;
        break;
    default: made.views = (struct yk_views){(const uint8_t(*)[16])views, 3}; made.buffers = (struct yk_buffers){&buffer, 1};
    }
    return made;
}

/* The bytes of a number of that kind: 0 for bits and texts. */
static size_t width(uint32_t kind) {
    static const size_t widths[] = {0, 0, 1, 2, 4, 8, 1, 2, 4, 8};
    return kind < COUNT(widths) ? widths[kind] : 0;
}

static struct yk_room room_of(uint32_t kind, uint8_t *validity, void *values, int32_t *offsets, uint8_t *bytes) {
    struct yk_room room = {.kind = kind, .validity = {validity, 1}};
    switch (kind) {
    case YK_BOOL: room.bools = (struct yk_bytes_room){values, 1}; break;
    case YK_I8: room.i8 = (struct yk_i8s_room){values, 3}; break;
    case YK_I16: room.i16 = (struct yk_i16s_room){values, 3}; break;
    case YK_I32: room.i32 = (struct yk_i32s_room){values, 3}; break;
    case YK_I64: room.i64 = (struct yk_i64s_room){values, 3}; break;
    case YK_U8: room.u8 = (struct yk_bytes_room){values, 3}; break;
    case YK_U16: room.u16 = (struct yk_u16s_room){values, 3}; break;
    case YK_U32: room.u32 = (struct yk_u32s_room){values, 3}; break;
    case YK_U64: room.u64 = (struct yk_u64s_room){values, 3}; break;
    default: room.offsets32 = (struct yk_i32s_room){offsets, 4}; room.data = (struct yk_bytes_room){bytes, 35};
    }
    return room;
}

/* A column of each kind goes in and comes out unchanged. */
static void each_kind(void) {
    for (uint32_t kind = YK_BOOL; kind <= YK_BINARY_VIEW; kind++) {
        struct yk_field fields[] = {field("x", kind, true)};
        struct yk_expression expression = read_expression("x", fields, 1);
        struct yk_column in = column(kind);
        struct yk_answers answers = {0};
        struct yk_error error = new_error();
        struct yk_type type = {0};
        SAME(yk_answer_type(&expression, 0, &type), YK_OK);
        SAME(type.kind, kind >= YK_BINARY ? YK_BINARY : kind >= YK_UTF8 ? YK_UTF8 : kind);
        SAME(yk_run(&expression, &in, 1, 3, &answers, &error), YK_OK);
        uint8_t validity[] = {0xff}, bytes[35];
        uint64_t values[3];
        int32_t offsets[4];
        struct yk_room room = room_of(type.kind, validity, values, offsets, bytes);
        SAME(yk_answer_copy(&answers, 0, &room), YK_OK);
        SAME(validity[0] & 7, 3);
        if (kind == YK_BOOL)
            SAME(*(uint8_t *)values & 3, 1);
        else if (width(kind))
            CHECK(memcmp(values,
                      kind == YK_I8    ? (const void *)i8s
                      : kind == YK_I16 ? (const void *)i16s
                      : kind == YK_I32 ? (const void *)i32s
                      : kind == YK_I64 ? (const void *)i64s
                      : kind == YK_U8  ? (const void *)u8s
                      : kind == YK_U16 ? (const void *)u16s
                      : kind == YK_U32 ? (const void *)u32s
                                       : (const void *)u64s,
                      2 * width(kind)) == 0);
        else
            CHECK(memcmp(bytes, data, 35) == 0 && memcmp(offsets, offsets32, sizeof offsets) == 0);
        yk_answers_free(&answers);
        yk_expression_free(&expression);
    }
}

/* An expression returns its fields and its answers. */
static void told(void) {
    struct yk_field fields[] = {field("price", YK_I32, false), field("unit price", YK_U8, true)};
    struct yk_expression expression = read_expression("price + 1 as more, \"unit price\", price < 2 and true", fields, 2);
    static const char *const names[] = {"more", "unit price"};
    size_t count, length;
    char room[40];
    SAME(yk_field_count(&expression, &count), YK_OK);
    SAME(count, 2);
    SAME(yk_answer_count(&expression, &count), YK_OK);
    SAME(count, 3);
    for (size_t i = 0; i < COUNT(names); i++) {
        SAME(yk_answer_name(&expression, i, room, sizeof room, &length), YK_OK);
        CHECK(length == strlen(names[i]) && memcmp(room, names[i], length) == 0);
    }
    SAME(yk_answer_name(&expression, 0, room, 3, &length), YK_ROOM_TOO_SMALL);
    SAME(length, 4);
    SAME(yk_answer_name(&expression, 0, NULL, 0, &length), YK_ROOM_TOO_SMALL);
    SAME(yk_answer_text(&expression, 2, false, room, sizeof room, &length), YK_OK);
    CHECK(length == 23 && memcmp(room, "price < 2::i32 and true", 23) == 0);
    SAME(yk_answer_text(&expression, 2, true, room, sizeof room, &length), YK_OK);
    CHECK(length == 14 && memcmp(room, "price < 2::i32", 14) == 0);
    SAME(yk_field_name(&expression, 1, room, sizeof room, &length), YK_OK);
    CHECK(length == 10 && memcmp(room, "unit price", 10) == 0);
    SAME(yk_field_name(&expression, 2, room, sizeof room, &length), YK_NO_SUCH_NUMBER);
    SAME(yk_answer_name(&expression, 3, room, sizeof room, &length), YK_NO_SUCH_NUMBER);
    yk_expression_free(&expression);
    SAME(yk_version(room, sizeof room, &length), YK_OK);
    CHECK(length > 8 && memcmp(room, "yurkije ", 8) == 0);
    SAME(yk_abi_version(), YK_ABI_VERSION);
}

/* Errors of texts report where. */
static void refused_texts(void) {
    static const struct {
        const char *text;
        uint32_t status;
        size_t byte;
    } cases[] = {
        {"price <", YK_NO_EXPRESSION, 7},
        {"prcie", YK_SCOPE_MISMATCH, 0},
        {"1 + prcie", YK_SCOPE_MISMATCH, 4},
        {"7::i7", YK_UNKNOWN_TYPE, 3},
        {"price + 1 = 3000000000", YK_NOT_HELD, 10},
        {"price = 'x'", YK_NOT_HELD, 6},
        {"name like 'a' escape 'xy'", YK_NO_ESCAPE, 5},
        {"price and 'a'", YK_TYPE_MISMATCH, 6},
        {"cast(price as u8?)", YK_NO_CAST, 14},
        {"price + f(price)", YK_NO_FUNCTION, 8},
        {"\xff", YK_NOT_A_TEXT, YK_NONE},
    };
    struct yk_field fields[] = {field("price", YK_I32, false), field("name", YK_UTF8, false)};
    for (size_t i = 0; i < COUNT(cases); i++) {
        struct yk_expression expression = {0};
        struct yk_error error = new_error();
        uint32_t status = yk_expression_new(cases[i].text, strlen(cases[i].text), fields, 2, &expression, &error);
        if (status != cases[i].status || error.status != status)
            fprintf(stderr, "%s: %u, not %u: %s\n", cases[i].text, status, cases[i].status, message), faults++;
        if (error.byte != cases[i].byte)
            fprintf(stderr, "%s: byte %zu, not %zu: %s\n", cases[i].text, error.byte, cases[i].byte, message), faults++;
        CHECK(!expression.live && strlen(message) == error.message_length && error.message_length > 0);
    }
    struct yk_expression expression = {0};
    struct yk_error error = {0};
    SAME(yk_expression_new("1 +", 3, NULL, 0, &expression, &error), YK_NO_EXPRESSION);
    fields[1].name = text_of("price");
    error = new_error();
    SAME(yk_expression_new("price", 5, fields, 2, &expression, &error), YK_NAME_TWICE);
    SAME(error.column, 1);
    fields[1] = field("name", 77, false);
    SAME(yk_expression_new("price", 5, fields, 2, &expression, &error), YK_UNKNOWN_KIND);
    SAME(error.column, 1);
}

/* Errors of columns report which, and the row. */
static void refused_columns(void) {
    struct yk_field fields[] = {field("a", YK_I64, false), field("t", YK_UTF8, true)};
    struct yk_expression expression = read_expression("a + 1, t", fields, 2);
    struct yk_answers answers = {0};
    struct yk_error error = new_error();
    struct yk_column good[] = {{.kind = YK_I64, .rows = 3, .i64 = {(const int64_t[]){1, 2, 3}, 3}}, column(YK_UTF8)}, in[2];
#define REFUSED(change, expected, at, of_row)                                                                                              \
    memcpy(in, good, sizeof in);                                                                                                           \
    change;                                                                                                                                \
    SAME(yk_run(&expression, in, 2, 3, &answers, &error), expected);                                                                       \
    SAME(error.column, at);                                                                                                                \
    SAME(error.row, of_row);                                                                                                               \
    CHECK(!answers.live)
    SAME(yk_run(&expression, good, 2, 3, &answers, &error), YK_OK);
    REFUSED(in[0].rows = 2, YK_LENGTH_MISMATCH, 0, YK_NONE);
    REFUSED(in[0].i64.length = 2, YK_VALUES_TOO_SHORT, 0, YK_NONE);
    REFUSED(in[0].offset = SIZE_MAX, YK_VALUES_TOO_SHORT, 0, YK_NONE);
    REFUSED(in[0].kind = YK_I32, YK_SCOPE_MISMATCH, 0, YK_NONE);
    REFUSED(in[0].kind = 99, YK_UNKNOWN_KIND, 0, YK_NONE);
    REFUSED(in[0].kind = YK_DECIMAL(19, 2), YK_UNKNOWN_KIND, 0, YK_NONE);
    REFUSED(in[0].kind = YK_TIMESTAMP, YK_SCOPE_MISMATCH, 0, YK_NONE);
    REFUSED(in[0].kind = YK_NO_KIND, YK_UNKNOWN_KIND, 0, YK_NONE);
    REFUSED(in[0].nullable = true, YK_SCOPE_MISMATCH, 0, YK_NONE);
    REFUSED((in[0].validity = (struct yk_bytes){valid, 1}), YK_UNEXPECTED_NULL, 0, 2);
    REFUSED(in[1].validity.length = 0; in[1].offsets32.length = 3, YK_OFFSETS_TOO_SHORT, 1, YK_NONE);
    REFUSED(in[1].data.length = 34, YK_PAST_DATA, 1, 1);
    REFUSED(in[1].offset = 6; in[1].validity.length = 1, YK_VALIDITY_TOO_SHORT, 1, YK_NONE);
    REFUSED((in[1].offsets32.at = (const int32_t[]){0, 3, 2, 2}), YK_OFFSETS_FALL, 1, 1);
    REFUSED((in[1].data.at = (const uint8_t *)"nu\xff and more than thirty-five bytes"), YK_NOT_UTF8, 1, 0);
#undef REFUSED
    SAME(yk_run(&expression, good, 1, 3, &answers, &error), YK_SCOPE_MISMATCH);
    good[0].i64.at = (const int64_t[]){1, INT64_MAX, INT64_MAX};
    SAME(yk_run(&expression, good, 2, 3, &answers, &error), YK_ARITHMETIC);
    SAME(error.row, 1);
    SAME(error.answer, 0);
    yk_expression_free(&expression);
}

/* Wrong use is reported where it can be detected. */
static void wrong_use(void) {
    struct yk_expression expression = {0}, other;
    struct yk_answers answers = {0};
    struct yk_error error = new_error();
    struct yk_size size = {0};
    struct yk_room room = {.kind = YK_I64};
    size_t count = 0;
    uint64_t numbers[3];
    yk_expression_free(&expression);
    yk_answers_free(&answers);
    SAME(yk_answer_count(&expression, &count), YK_EMPTY_HANDLE);
    SAME(yk_run(&expression, NULL, 0, 0, &answers, &error), YK_EMPTY_HANDLE);
    SAME(yk_answer_size(&answers, 0, &size), YK_EMPTY_HANDLE);
    SAME(yk_answer_copy(&answers, 0, &room), YK_EMPTY_HANDLE);
    SAME(yk_select(&answers, 0, numbers, 3, &count), YK_EMPTY_HANDLE);
    expression = read_expression("1 + 2 as three, true", NULL, 0);
    other = expression; /* moved */
    memset(&expression, 0, sizeof expression);
    SAME(yk_run(&other, NULL, 0, 3, &answers, &error), YK_OK);
    SAME(yk_answer_size(&answers, 2, &size), YK_NO_SUCH_NUMBER);
    SAME(yk_answer_size(&answers, 0, &size), YK_OK);
    CHECK(size.rows == 3 && size.validity == 1 && size.values == 3 && size.offsets == 0 && size.data == 0);
    SAME(yk_answer_copy(&answers, 0, &room), YK_VALIDITY_TOO_SHORT);
    uint8_t validity[1];
    room.validity = (struct yk_bytes_room){validity, 1};
    SAME(yk_answer_copy(&answers, 0, &room), YK_VALUES_TOO_SHORT);
    room.kind = YK_I32;
    SAME(yk_answer_copy(&answers, 0, &room), YK_OTHER_KIND);
    SAME(yk_select(&answers, 0, numbers, 3, &count), YK_OTHER_KIND);
    SAME(yk_select(&answers, 1, numbers, 2, &count), YK_VALUES_TOO_SHORT);
    SAME(count, 3);
    SAME(yk_select(&answers, 1, numbers, 3, &count), YK_OK);
    CHECK(count == 3 && numbers[0] == 0 && numbers[2] == 2);
    yk_answers_free(&answers);
    yk_answers_free(&answers);
    yk_expression_free(&other);
    yk_expression_free(&other);
    SAME(yk_answer_count(&other, &count), YK_EMPTY_HANDLE);
}

/* No rows, and slices of no items that are NULL. */
static void nothing(void) {
    struct yk_field fields[] = {field("a", YK_I64, true), field("t", YK_UTF8, true), field("v", YK_UTF8_VIEW, false)};
    struct yk_expression expression = read_expression("a + 1, t, v, a < 2", fields, 3);
    struct yk_column in[] = {{.kind = YK_I64, .nullable = true}, {.kind = YK_UTF8, .nullable = true}, {.kind = YK_UTF8_VIEW}};
    struct yk_answers answers = {0};
    struct yk_error error = new_error();
    struct yk_size size = {0};
    SAME(yk_run(&expression, in, 3, 0, &answers, &error), YK_OK);
    SAME(yk_answer_size(&answers, 1, &size), YK_OK);
    CHECK(size.rows == 0 && size.validity == 0 && size.offsets == 1 && size.data == 0);
    int32_t offsets[1] = {7};
    struct yk_room room = {.kind = YK_UTF8, .offsets32 = {offsets, 1}};
    SAME(yk_answer_copy(&answers, 1, &room), YK_OK);
    SAME(offsets[0], 0);
    size_t count = 9;
    SAME(yk_select(&answers, 3, NULL, 0, &count), YK_OK);
    SAME(count, 0);
    yk_answers_free(&answers);
    yk_expression_free(&expression);
}

/* Columns that no answer reads are not looked at, and fields that are read are numbered. */
static void unread(void) {
    struct yk_field fields[] = {field("a", YK_I64, true), field("t", YK_UTF8, true), field("v", YK_UTF8_VIEW, false)};
    struct yk_expression expression = read_expression("a > 1 as big, a", fields, 3);
    struct yk_column wrong = {.kind = 99, .rows = 7, .offset = SIZE_MAX, .offsets32 = {offsets32, 1}};
    struct yk_column in[] = {column(YK_I64), wrong, {0}};
    struct yk_answers answers = {0};
    struct yk_error error = new_error();
    size_t numbers[3] = {9, 9, 9}, count = 9;
    SAME(yk_fields_read(&expression, numbers, 0, &count), YK_ROOM_TOO_SMALL);
    CHECK(count == 1 && numbers[0] == 9);
    SAME(yk_fields_read(&expression, numbers, 3, &count), YK_OK);
    CHECK(count == 1 && numbers[0] == 0 && numbers[1] == 9);
    SAME(yk_run(&expression, in, 3, 3, &answers, &error), YK_OK);
    uint8_t mask[4] = {9, 9, 9, 9};
    SAME(yk_mask(&answers, 0, mask, 2), YK_VALUES_TOO_SHORT);
    SAME(mask[0], 9);
    SAME(yk_mask(&answers, 1, mask, 4), YK_OTHER_KIND);
    SAME(yk_mask(&answers, 0, mask, 4), YK_OK);
    CHECK(mask[0] == 0 && mask[1] == 0 && mask[2] == 0 && mask[3] == 9);
    SAME(yk_run(&expression, in, 2, 3, &answers, &error), YK_SCOPE_MISMATCH);
    in[0].rows = 2;
    SAME(yk_run(&expression, in, 3, 3, &answers, &error), YK_LENGTH_MISMATCH);
    SAME(error.column, 0);
    yk_expression_free(&expression);
    expression = read_expression("v = 'nut', a", fields, 3);
    SAME(yk_fields_read(&expression, numbers, 3, &count), YK_OK);
    CHECK(count == 2 && numbers[0] == 0 && numbers[1] == 2);
    yk_answers_free(&answers);
    yk_expression_free(&expression);
    SAME(yk_fields_read(&expression, numbers, 3, &count), YK_EMPTY_HANDLE);
}

/* Groups of rows by statistics, and statistics that are refused. */
static void pruned(void) {
    static const int64_t lows[] = {0, 101, 90}, highs[] = {9, 300, 110};
    static const uint64_t rows[] = {8, 9, 10};
    struct yk_field fields[] = {field("a", YK_I64, true), field("t", YK_UTF8, true)};
    struct yk_expression expression = read_expression("a > 100 and t is null, 1 / a = 1 or true, a > 999 and 100 / a > 1, a", fields, 2);
    struct yk_column low = {.kind = YK_I64, .rows = 3, .i64 = {lows, 3}}, high = {.kind = YK_I64, .nullable = true, .rows = 3, .i64 = {highs, 3}};
    struct yk_column none = {.kind = YK_U64, .rows = 3, .u64 = {(const uint64_t[]){0, 0, 0}, 3}};
    struct yk_column all = {.kind = YK_U64, .rows = 3, .u64 = {rows, 3}};
    const struct yk_statistics good[] = {{low, high, none}, {.nulls = all}};
    struct yk_statistics in[2];
    uint8_t verdicts[4], may_fault[4];
    uint64_t least[4], most[4];
    struct yk_verdicts room = {{verdicts, 3}, {may_fault, 3}, {least, 3}, {most, 3}};
    struct yk_error error = new_error();
    memset(verdicts, 9, sizeof verdicts);
    SAME(yk_prune(&expression, 0, good, 2, rows, 3, &room, &error), YK_OK);
    CHECK(verdicts[0] == YK_NONE_TRUE && verdicts[1] == YK_ALL_TRUE && verdicts[2] == YK_UNKNOWN && verdicts[3] == 9);
    CHECK(!may_fault[0] && !may_fault[1] && !may_fault[2] && least[0] == 0 && most[0] == 0 && least[1] == 9 && most[1] == 9 && most[2] == 10);
    CHECK(error.status == YK_OK && error.message_length == 0);
    /* rules drop the fault of the answer as it was written */
    SAME(yk_prune(&expression, 1, good, 2, rows, 3, &room, &error), YK_OK);
    CHECK(verdicts[0] == YK_ALL_TRUE && !may_fault[0]);
    SAME(yk_prune(&expression, 2, good, 2, rows, 3, &room, &error), YK_OK);
    /* the first group is not to be left out: a run over it may fail */
    CHECK(verdicts[0] == YK_NONE_TRUE && may_fault[0] && verdicts[1] == YK_NONE_TRUE && !may_fault[1]);
    /* one buffer alone, and nothing known */
    struct yk_verdicts one = {.most = {most, 3}};
    memset(in, 0, sizeof in);
    SAME(yk_prune(&expression, 0, in, 2, rows, 3, &one, &error), YK_OK);
    CHECK(most[0] == 8 && most[2] == 10 && verdicts[0] == YK_NONE_TRUE);
    SAME(yk_prune(&expression, 0, in, 2, NULL, 0, &(struct yk_verdicts){0}, &error), YK_OK);
#define REFUSED(change, expected, at, of_group)                                                                                            \
    memcpy(in, good, sizeof in);                                                                                                           \
    memset(verdicts, 9, sizeof verdicts);                                                                                                  \
    change;                                                                                                                                \
    SAME(yk_prune(&expression, 0, in, 2, rows, 3, &room, &error), expected);                                                               \
    SAME(error.status, expected);                                                                                                          \
    SAME(error.column, at);                                                                                                                \
    SAME(error.row, of_group);                                                                                                             \
    CHECK(verdicts[0] == 9 && verdicts[2] == 9 && error.message_length > 0)
    REFUSED(in[0].low.i64.at = highs; in[0].high.i64.at = lows, YK_CONTRADICTION, 0, 0);
    REFUSED((in[0].high.i64.at = (const int64_t[]){9, 300, 89}), YK_CONTRADICTION, 0, 2);
    REFUSED((in[1].nulls.u64.at = (const uint64_t[]){8, 10, 0}), YK_CONTRADICTION, 1, 1);
    REFUSED(in[0].high.kind = YK_I32, YK_SCOPE_MISMATCH, 0, YK_NONE);
    REFUSED(in[1].low = low, YK_SCOPE_MISMATCH, 1, YK_NONE);
    REFUSED(in[1].nulls = low, YK_SCOPE_MISMATCH, 1, YK_NONE);
    REFUSED(in[1].nulls.kind = 99, YK_UNKNOWN_KIND, 1, YK_NONE);
    REFUSED(in[0].low.kind = YK_TIMESTAMP, YK_SCOPE_MISMATCH, 0, YK_NONE);
    REFUSED(in[0].low.rows = 2, YK_LENGTH_MISMATCH, 0, YK_NONE);
    REFUSED(in[0].low.i64.length = 2, YK_VALUES_TOO_SHORT, 0, YK_NONE);
    REFUSED((in[0].low.validity = (struct yk_bytes){valid, 1}), YK_UNEXPECTED_NULL, 0, 2);
    REFUSED(room.least.length = 2, YK_VALUES_TOO_SHORT, YK_NONE, YK_NONE);
#undef REFUSED
    room.least.length = 3;
    in[0] = good[0];
    in[0].low.validity = (struct yk_bytes){valid, 1};
    in[0].low.nullable = true; /* the low end of the last group is not known */
    SAME(yk_prune(&expression, 0, in, 2, rows, 3, &room, &error), YK_OK);
    SAME(yk_prune(&expression, 3, good, 2, rows, 3, &room, &error), YK_TYPE_MISMATCH);
    SAME(yk_prune(&expression, 4, good, 2, rows, 3, &room, &error), YK_NO_SUCH_NUMBER);
    SAME(yk_prune(&expression, 0, good, 1, rows, 3, &room, &error), YK_SCOPE_MISMATCH);
    SAME(error.column, 1);
    yk_expression_free(&expression);
    SAME(yk_prune(&expression, 0, good, 2, rows, 3, &room, &error), YK_EMPTY_HANDLE);
    SAME(error.status, YK_EMPTY_HANDLE);
}

/* Floats, dates and decimals: read, run, typed and copied, as a whole and part by part. */
static void kinds(size_t rows) {
    static double xs[10000], found_xs[10000];
    static int32_t days[10000], found_days[10000];
    static int64_t prices[10000], found_prices[10000];
    static uint8_t bits[1250], mask[10000];
    struct yk_expression expression = {0};
    struct yk_answers answers = {0};
    struct yk_error error = new_error();
    struct yk_type type;
    const struct yk_field fields[] = {{{"x", 1}, YK_F64, false}, {{"d", 1}, YK_DATE, false}, {{"p", 1}, YK_DECIMAL(12, 2), false}};
    struct yk_column in[3] = {{.kind = YK_F64, .rows = rows}, {.kind = YK_DATE, .rows = rows}, {.kind = YK_DECIMAL(12, 2), .rows = rows}};
    const char text[] = "x + 0.5 as y, d + 1 as e, p + 1.25 as q, p > 12.5 as dear";
    for (size_t i = 0; i < rows; i++) {
        xs[i] = (double)i - 3.25;
        days[i] = (int32_t)i - 7;
        prices[i] = (int64_t)i * 125;
    }
    in[0].f64 = (struct yk_f64s){xs, rows};
    in[1].i32 = (struct yk_i32s){days, rows};
    in[2].i64 = (struct yk_i64s){prices, rows};
    SAME(yk_expression_new(text, sizeof text - 1, fields, 3, &expression, &error), YK_OK);
    SAME(yk_run(&expression, in, 3, rows, &answers, &error), YK_OK);
    struct yk_room room = {.kind = YK_F64, .validity = {bits, sizeof bits}, .f64 = {found_xs, rows}};
    SAME(yk_answer_type(&expression, 0, &type), YK_OK);
    SAME(type.kind, YK_F64);
    SAME(yk_answer_copy(&answers, 0, &room), YK_OK);
    room = (struct yk_room){.kind = YK_I64, .validity = {bits, sizeof bits}, .i64 = {found_prices, rows}};
    SAME(yk_answer_copy(&answers, 0, &room), YK_OTHER_KIND);
    SAME(yk_answer_type(&expression, 1, &type), YK_OK);
    SAME(type.kind, YK_DATE);
    room = (struct yk_room){.kind = YK_DATE, .validity = {bits, sizeof bits}, .i32 = {found_days, rows}};
    SAME(yk_answer_copy(&answers, 1, &room), YK_OK);
    SAME(yk_answer_type(&expression, 2, &type), YK_OK);
    SAME(type.kind & 255, YK_DECIMAL64);
    SAME(YK_DECIMAL_SCALE(type.kind), 2);
    room = (struct yk_room){.kind = type.kind, .validity = {bits, sizeof bits}, .i64 = {found_prices, rows}};
    SAME(yk_answer_copy(&answers, 2, &room), YK_OK);
    SAME(yk_mask(&answers, 3, mask, rows), YK_OK);
    bool same = true;
    for (size_t i = 0; i < rows; i++)
        same = same && found_xs[i] == xs[i] + 0.5 && found_days[i] == days[i] + 1 && found_prices[i] == prices[i] + 125 && mask[i] == (prices[i] > 1250);
    CHECK(same);
    in[1].kind = YK_I32;
    SAME(yk_run(&expression, in, 3, rows, &answers, &error), YK_SCOPE_MISMATCH);
    SAME(error.column, 1);
    yk_answers_free(&answers);
    yk_expression_free(&expression);
}

/* Whether the rows of truth values are as a word says: true, false or null. */
static void rows_are(const char *text, const char *expected) {
    static const double floats[] = {99, -0.0, 1.5, 2.5, -1, NAN, 0, 1e300}, bounds[] = {99, 0, 1, 3, -2, NAN, 0, 0};
    static const int32_t whole[] = {99, 1, 3, 4, -5, 7, 3, 100};
    static const uint8_t valid[] = {0xdb}, truths[] = {0x54};
    const struct yk_field fields[] = {field("x", YK_F64, false), field("y", YK_F64, false), field("n", YK_F64, true),
                                      field("p", YK_BOOL, false), field("i", YK_I32, false)};
    struct yk_column in[COUNT(fields)];
    for (size_t k = 0; k < COUNT(fields); k++)
        in[k] = (struct yk_column){.kind = fields[k].kind, .nullable = fields[k].nullable, .rows = 7, .offset = 1};
    in[0].f64 = in[2].f64 = (struct yk_f64s){floats, 8};
    in[1].f64 = (struct yk_f64s){bounds, 8};
    in[2].validity = (struct yk_bytes){valid, 1};
    in[3].bools = (struct yk_bytes){truths, 1};
    in[4].i32 = (struct yk_i32s){whole, 8};
    struct yk_expression expression = read_expression(text, fields, COUNT(fields));
    struct yk_answers answers = {0};
    struct yk_error error = new_error();
    uint8_t bits[1] = {0}, given[1] = {255};
    char told[8] = "";
    struct yk_room room = {.kind = YK_BOOL, .bools = {bits, 1}, .validity = {given, 1}};
    SAME(yk_run(&expression, in, COUNT(fields), 7, &answers, &error), YK_OK);
    SAME(yk_answer_copy(&answers, 0, &room), YK_OK);
    for (size_t i = 0; i < 7; i++)
        told[i] = !bit(given, i) ? 'n' : bit(bits, i) ? 't' : 'f';
    if (strcmp(told, expected)) {
        fprintf(stderr, "%s: %s, not %s\n", text, told, expected);
        faults++;
    }
    yk_answers_free(&answers);
    yk_expression_free(&expression);
}

/* Calls that read columns where they lie, from the item after the first on: BETWEEN of floats in their order, constants
 * on the left, null tests, and comparisons of truth values. */
static void where_they_lie(void) {
    rows_are("x between 0.0 and 1.5", "ttffftf");
    rows_are("x between 2.5 and y", "fftftff");
    rows_are("n between 0.0 and 2.5", "tntfntf");
    rows_are("1.5 < x", "fftftft");
    rows_are("3 < i", "fftftft");
    rows_are("4 >= i", "ttttftf");
    rows_are("n is null", "ftfftff");
    rows_are("n is not null", "tfttftt");
    rows_are("p = (x < 1.5)", "ffttttt");
}

int main(void) {
    each_kind();
    told();
    refused_texts();
    refused_columns();
    wrong_use();
    nothing();
    unread();
    where_they_lie();
    pruned();
    kinds(3);
    kinds(10000);
    if (!faults)
        puts("calls: as expected");
    return faults != 0;
}
