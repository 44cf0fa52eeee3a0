/* Values of SQLite as columns of one row, and back. */
#include "yurkije_sqlite.h"

SQLITE_EXTENSION_INIT3

static int64_t least(uint32_t kind) {
    return kind == YK_I8 ? INT8_MIN : kind == YK_I16 ? INT16_MIN : kind == YK_I32 ? INT32_MIN : kind == YK_I64 ? INT64_MIN : 0;
}

static int64_t most(uint32_t kind) {
    static const int64_t most_of[] = {0, 1, INT8_MAX, INT16_MAX, INT32_MAX, INT64_MAX, UINT8_MAX, UINT16_MAX, UINT32_MAX, INT64_MAX};
    return most_of[kind];
}

/* A whole number, if its type holds it. */
static bool borrow_integer(sqlite3_value *value, uint32_t kind, struct cell *cell) {
    cell->number = sqlite3_value_int64(value);
    return sqlite3_value_type(value) == SQLITE_INTEGER && cell->number >= least(kind) && cell->number <= most(kind);
}

/* A float, or a whole number that is one. */
static bool borrow_float(sqlite3_value *value, uint32_t kind, struct cell *cell) {
    double number = sqlite3_value_double(value);
    int type = sqlite3_value_type(value);
    if (type != SQLITE_FLOAT && (type != SQLITE_INTEGER || number >= 0x1p63 || (int64_t)number != sqlite3_value_int64(value)))
        return false;
    if (kind == YK_F64) {
        cell->f64 = number;
        return true;
    }
    cell->number = 0;
    cell->f32 = (float)number;
    return cell->f32 == number;
}

/* The decimal of so many places that is nearest to a float, if the float is the nearest to it. Up to 2^53 both are exact before they are
 * divided. */
static bool decimal_of(double number, uint32_t kind, int64_t *units) {
    double power = 1, most_units = 1;
    for (uint32_t i = 0; i < YK_DECIMAL_SCALE(kind); i++)
        power *= 10;
    for (uint32_t i = 0; i < YK_DECIMAL_PRECISION(kind); i++)
        most_units *= 10;
    double shifted = number * power;
    if (!(shifted > -0x1p53 && shifted < 0x1p53))
        return false;
    *units = (int64_t)(shifted < 0 ? shifted - 0.5 : shifted + 0.5);
    return (double)*units / power == number && *units<most_units && * units> - most_units;
}

/* A decimal of a text, a whole number or a float. */
static bool borrow_decimal(sqlite3_value *value, uint32_t kind, struct cell *cell) {
    /* the type, before the value is made a text of */
    int type = sqlite3_value_type(value);
    if (type == SQLITE_FLOAT)
        return decimal_of(sqlite3_value_double(value), kind, &cell->number);
    const char *text = type == SQLITE_TEXT || type == SQLITE_INTEGER ? (const char *)sqlite3_value_text(value) : NULL;
    return text && read_written(kind, text, &cell->number);
}

/* Borrows the number of a value: its bytes, little-endian, are those of each narrower type too. */
static bool borrow_number(sqlite3_value *value, uint32_t kind, struct cell *cell) {
    switch (kind % 256) {
    case YK_F64:
    case YK_F32: return borrow_float(value, kind, cell);
    case YK_DECIMAL64: return borrow_decimal(value, kind, cell);
    case YK_DATE:
    case YK_TIMESTAMP:
        return sqlite3_value_type(value) == SQLITE_TEXT && sqlite3_value_text(value) &&
               read_written(kind, (const char *)sqlite3_value_text(value), &cell->number);
    default: return borrow_integer(value, kind, cell);
    }
}

static void set_number(struct yk_column *column, const void *at) {
    switch (column->kind % 256) {
    case YK_BOOL: column->bools = (struct yk_bytes){at, 1}; break;
    case YK_I8: column->i8 = (struct yk_i8s){at, 1}; break;
    case YK_I16: column->i16 = (struct yk_i16s){at, 1}; break;
    case YK_I32:
    case YK_F32:
    case YK_DATE: column->i32 = (struct yk_i32s){at, 1}; break;
    case YK_I64:
    case YK_F64:
    case YK_TIMESTAMP:
    case YK_DECIMAL64: column->i64 = (struct yk_i64s){at, 1}; break;
    case YK_U8: column->u8 = (struct yk_bytes){at, 1}; break;
    case YK_U16: column->u16 = (struct yk_u16s){at, 1}; break;
    case YK_U32: column->u32 = (struct yk_u32s){at, 1}; break;
    default: column->u64 = (struct yk_u64s){at, 1}; break;
    }
}

bool borrow(sqlite3_value *value, const struct yk_field *field, bool is_any, struct yk_column *column, struct cell *cell) {
    bool is_text = field->kind == YK_UTF8 || field->kind == YK_BINARY, is_null = sqlite3_value_type(value) == SQLITE_NULL;
    *column = (struct yk_column){.kind = field->kind, .nullable = field->nullable, .rows = 1, .validity = {&cell->valid, 1}};
    cell->valid = !is_null;
    cell->number = 0;
    if (!is_text) {
        set_number(column, &cell->number);
        return is_null || borrow_number(value, field->kind, cell);
    }
    bool is_empty = is_null || is_any;
    const void *bytes = sqlite3_value_type(value) == SQLITE_TEXT ? (const void *)sqlite3_value_text(value) : sqlite3_value_blob(value);
    cell->ends[0] = 0;
    cell->ends[1] = is_empty ? 0 : sqlite3_value_bytes(value);
    column->offsets32 = (struct yk_i32s){cell->ends, 2};
    column->data = (struct yk_bytes){cell->ends[1] ? bytes : NULL, (size_t)cell->ends[1]};
    return is_empty || sqlite3_value_type(value) == (field->kind == YK_UTF8 ? SQLITE_TEXT : SQLITE_BLOB);
}

/* The number of a kind in the bytes of an answer. */
static int64_t number_at(uint32_t kind, const void *at) {
    switch (kind % 256) {
    case YK_BOOL: return *(const uint8_t *)at & 1;
    case YK_I8: return *(const int8_t *)at;
    case YK_I16: return *(const int16_t *)at;
    case YK_I32: return *(const int32_t *)at;
    case YK_U8: return *(const uint8_t *)at;
    case YK_U16: return *(const uint16_t *)at;
    case YK_U32: return *(const uint32_t *)at;
    case YK_DATE: return *(const int32_t *)at;
    default: return *(const int64_t *)at;
    }
}

struct yk_room room_of(uint32_t kind, uint8_t *validity, void *values, int32_t *ends, struct yk_bytes_room data) {
    struct yk_room room = {.kind = kind, .validity = {validity, 1}};
    switch (kind % 256) {
    case YK_BOOL: room.bools = (struct yk_bytes_room){values, 1}; break;
    case YK_I8: room.i8 = (struct yk_i8s_room){values, 1}; break;
    case YK_I16: room.i16 = (struct yk_i16s_room){values, 1}; break;
    case YK_I32:
    case YK_F32:
    case YK_DATE: room.i32 = (struct yk_i32s_room){values, 1}; break;
    case YK_I64:
    case YK_F64:
    case YK_TIMESTAMP:
    case YK_DECIMAL64: room.i64 = (struct yk_i64s_room){values, 1}; break;
    case YK_U8: room.u8 = (struct yk_bytes_room){values, 1}; break;
    case YK_U16: room.u16 = (struct yk_u16s_room){values, 1}; break;
    case YK_U32: room.u32 = (struct yk_u32s_room){values, 1}; break;
    case YK_U64: room.u64 = (struct yk_u64s_room){values, 1}; break;
    default: room.offsets32 = (struct yk_i32s_room){ends, 2}; room.data = data;
    }
    return room;
}

void answer_number(sqlite3_context *context, uint32_t kind, const void *at) {
    int64_t number = number_at(kind, at);
    char room[40];
    if (kind == YK_F64)
        sqlite3_result_double(context, *(const double *)at);
    else if (kind == YK_F32)
        sqlite3_result_double(context, *(const float *)at);
    else if (kind == YK_U64 && number < 0)
        sqlite3_result_error(context, "yurkije: the answer is past SQLite's numbers", -1);
    else if (kind != YK_DATE && kind != YK_TIMESTAMP && kind % 256 != YK_DECIMAL64)
        sqlite3_result_int64(context, number);
    else if (write_number(kind, number, room))
        sqlite3_result_text(context, room, -1, SQLITE_TRANSIENT);
    else
        sqlite3_result_error(context, "yurkije: the answer is not in the years 1 to 9999", -1);
}
