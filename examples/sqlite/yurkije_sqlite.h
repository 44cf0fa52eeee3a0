/* Values of SQLite as columns of one row, and back. */
#include <sqlite3ext.h>
#include <yurkije.h>

#include <stdint.h>
#include <stdio.h>

/* A value of one row, and its column's slices. */
struct cell {
    union {
        int64_t number;
        double f64;
        float f32;
    };
    int32_t ends[2];
    uint8_t valid;
};

/* Borrows a value for the call. False if it is not of its field's type. Of any type only the validity is borrowed. */
bool borrow(sqlite3_value *value, const struct yk_field *field, bool is_any, struct yk_column *column, struct cell *cell);

/* The output buffer of an answer of one row. */
struct yk_room room_of(uint32_t kind, uint8_t *validity, void *values, int32_t *ends, struct yk_bytes_room data);

/* Passes an answer that is no text to SQLite. */
void answer_number(sqlite3_context *context, uint32_t kind, const void *at);

/* Reads a date, a timestamp or a decimal of a kind in a text. False if it is none. */
bool read_written(uint32_t kind, const char *text, int64_t *number);

/* Writes one into a room of 40 bytes. False if it has no text: years are 1 to 9999. */
bool write_number(uint32_t kind, int64_t number, char *room);
