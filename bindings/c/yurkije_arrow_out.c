/* Answers as Arrow's schemas and arrays, of columns of any length. */
#include "yurkije_arrow_shared.h"

#include <stdatomic.h>
#include <stdio.h>
#include <stdlib.h>
#include <string.h>

/* Schemas */

/* `d:18,18` and its NUL, and of any number that a kind has. */
enum { most_format = 24 };

static void release_schema(struct ArrowSchema *schema) {
    for (int64_t i = 0; i < schema->n_children; i++) {
        if (schema->children[i] && schema->children[i]->release)
            schema->children[i]->release(schema->children[i]);
        free(schema->children[i]);
    }
    free(schema->children);
    free(schema->private_data);
    schema->release = NULL;
}

/* A decimal's format, which belongs to its answer's name: behind the name's NUL. */
static const char *write_format(const struct layout *layout, uint32_t kind, char *at) {
    if (kind % 256 != YK_DECIMAL64)
        return layout->format;
    snprintf(at, most_format, "d:%u,%u", YK_DECIMAL_PRECISION(kind), YK_DECIMAL_SCALE(kind));
    return at;
}

/* The name of an answer, which ends with a NUL and has room for a format behind it; it belongs to the
 * caller. NULL if an allocation fails. */
static char *name_of_answer(const struct yk_expression *expression, size_t answer, size_t *length) {
    char none[1];
    yk_answer_name(expression, answer, none, 0, length);
    char *name = malloc(*length + 1 + most_format);
    if (name && yk_answer_name(expression, answer, name, *length, length)) {
        free(name);
        return NULL;
    }
    if (name)
        name[*length] = 0;
    return name;
}

static uint32_t fill_child(const struct yk_expression *expression, size_t answer, struct ArrowSchema *child, struct yk_error *error) {
    struct yk_type type = {0};
    size_t length = 0;
    uint32_t status = yk_answer_type(expression, answer, &type);
    if (status)
        return yk_refuse(error, status, YK_NONE, "answer %zu has no type", answer);
    const struct layout *layout = yk_layout_of_kind(type.kind);
    if (!layout)
        return yk_refuse(error, YK_OTHER_KIND, YK_NONE, "answer %zu is a list or a struct", answer);
    char *name = name_of_answer(expression, answer, &length);
    if (!name)
        return yk_refuse_memory(error);
    const char *format = write_format(layout, type.kind, name + length + 1);
    *child = (struct ArrowSchema){.format = format, .name = name, .release = release_schema, .private_data = name};
    child->flags = type.nullable ? ARROW_FLAG_NULLABLE : 0;
    return YK_OK;
}

/* Space for the children of a struct, zeroed. */
static void *zeroed(size_t count, size_t size) {
    void *at = malloc(count * size + 1);
    if (at)
        memset(at, 0, count * size + 1);
    return at;
}

uint32_t yk_arrow_schema(const struct yk_expression *expression, struct ArrowSchema *out, struct yk_error *error) {
    size_t count = 0;
    yk_reset(error);
    *out = (struct ArrowSchema){.format = "+s", .name = "", .release = release_schema};
    uint32_t status = yk_answer_count(expression, &count);
    if (status) {
        out->release = NULL;
        return yk_refuse(error, status, YK_NONE, "the expression is empty");
    }
    out->children = zeroed(count, sizeof *out->children);
    for (size_t i = 0; out->children && i < count && !status; i++) {
        out->children[i] = zeroed(1, sizeof **out->children);
        out->n_children++;
        status = out->children[i] ? fill_child(expression, i, out->children[i], error) : yk_refuse_memory(error);
    }
    if (!out->children)
        status = yk_refuse_memory(error);
    if (status)
        release_schema(out);
    return status;
}

/* Arrays */

/* The buffers of one answer, of all its rows; `buffers` is what Arrow reads. Counts the arrays that
 * share them. */
struct held {
    atomic_size_t users;
    const void *buffers[3];
    const struct layout *layout;
    uint8_t *validity;
    uint8_t *values; /* bits, integers or offsets */
    uint8_t *data;
    size_t data_length, data_room;
};

static void drop_held(struct held *held) {
    if (atomic_fetch_sub(&held->users, 1) > 1)
        return;
    free(held->validity);
    free(held->values);
    free(held->data);
    free(held);
}

static void release_array(struct ArrowArray *array) {
    for (int64_t i = 0; i < array->n_children; i++) {
        if (array->children[i] && array->children[i]->release)
            array->children[i]->release(array->children[i]);
        free(array->children[i]);
    }
    free(array->children);
    if (array->private_data)
        drop_held(array->private_data);
    array->release = NULL;
}

/* The buffers of the struct itself: one, of validity, and none of its rows is null. */
static const void *no_validity[1] = {NULL};

/* Allocates the buffers of an answer. False if an allocation fails. */
static bool make_held(uint32_t kind, size_t rows, struct ArrowArray *array) {
    struct held *held = rows < SIZE_MAX / 32 ? zeroed(1, sizeof *held) : NULL;
    if (!held)
        return false;
    atomic_init(&held->users, 1);
    held->layout = yk_layout_of_kind(kind);
    size_t width = held->layout->width, items = held->layout->buffers == 3 ? rows + 1 : rows;
    *array = (struct ArrowArray){.length = (int64_t)rows, .n_buffers = held->layout->buffers, .release = release_array};
    array->buffers = held->buffers;
    array->private_data = held;
    held->validity = malloc(yk_bytes_for(rows) + sizeof(uint64_t));
    held->values = malloc((width ? items * width : yk_bytes_for(items)) + 1);
    return held->validity && held->values;
}

/* Makes room for that many more bytes. */
static bool grow(struct held *held, size_t more) {
    if (more <= held->data_room - held->data_length && held->data)
        return true;
    size_t room = 2 * held->data_room > held->data_length + more ? 2 * held->data_room : held->data_length + more;
    uint8_t *data = realloc(held->data, room + 1);
    if (!data)
        return false;
    held->data = data;
    held->data_room = room;
    return true;
}

/* The output buffers of a batch that begins at that row, within the buffers of all rows. */
static struct yk_room room_at(struct held *held, uint32_t kind, size_t start, const struct yk_size *size) {
    struct yk_room room = {.kind = kind};
    uint8_t *values = held->values + (held->layout->width ? start * held->layout->width : start / 8);
    room.validity = (struct yk_bytes_room){held->validity + start / 8, size->validity};
    switch (kind % 256) {
    case YK_BOOL: room.bools = (struct yk_bytes_room){values, size->values}; break;
    case YK_I8: room.i8 = (struct yk_i8s_room){(int8_t *)(void *)values, size->values}; break;
    case YK_I16: room.i16 = (struct yk_i16s_room){(int16_t *)(void *)values, size->values}; break;
    case YK_I32:
    case YK_DATE: room.i32 = (struct yk_i32s_room){(int32_t *)(void *)values, size->values}; break;
    case YK_I64:
    case YK_TIMESTAMP:
    case YK_DECIMAL64: room.i64 = (struct yk_i64s_room){(int64_t *)(void *)values, size->values}; break;
    case YK_F32: room.f32 = (struct yk_f32s_room){(float *)(void *)values, size->values}; break;
    case YK_F64: room.f64 = (struct yk_f64s_room){(double *)(void *)values, size->values}; break;
    case YK_U8: room.u8 = (struct yk_bytes_room){values, size->values}; break;
    case YK_U16: room.u16 = (struct yk_u16s_room){(uint16_t *)(void *)values, size->values}; break;
    case YK_U32: room.u32 = (struct yk_u32s_room){(uint32_t *)(void *)values, size->values}; break;
    case YK_U64: room.u64 = (struct yk_u64s_room){(uint64_t *)(void *)values, size->values}; break;
    default:
        room.offsets32 = (struct yk_i32s_room){(int32_t *)(void *)values, size->offsets};
        room.data = (struct yk_bytes_room){held->data + held->data_length, size->data};
    }
    return room;
}

/* Appends the offsets of a batch to the earlier ones. */
static void shift_offsets(struct yk_room *room, size_t by) {
    for (size_t i = 0; i < room->offsets32.length; i++)
        room->offsets32.at[i] += (int32_t)by;
}

/* Appends the answer of a batch to those of earlier batches. */
static uint32_t append(struct yk_answers *answers, size_t answer, uint32_t kind, size_t start, struct ArrowArray *array) {
    struct held *held = array->private_data;
    struct yk_size size = {0};
    uint32_t status = yk_answer_size(answers, answer, &size);
    if (status)
        return status;
    if (size.data > (size_t)INT32_MAX - held->data_length)
        return YK_TOO_LONG;
    if (held->layout->buffers == 3 && !grow(held, size.data))
        return YK_OUT_OF_MEMORY;
    struct yk_room room = room_at(held, kind, start, &size);
    status = yk_answer_copy(answers, answer, &room);
    if (status)
        return status;
    if (kind % 256 == YK_DECIMAL64)
        yk_widen_decimals(held->values + start * held->layout->width, size.values);
    shift_offsets(&room, held->data_length);
    held->data_length += size.data;
    return YK_OK;
}

/* Bits after the rows, which exist and are arbitrary, count as set. */
static int64_t count_nulls(const uint8_t *bits, size_t rows) {
    int64_t nulls = 0;
    for (size_t start = 0; start < rows; start += 64) {
        uint64_t word;
        memcpy(&word, bits + start / 8, sizeof word);
        if (rows - start < 64)
            word |= UINT64_MAX << (rows - start);
        nulls += __builtin_popcountll(~word);
    }
    return nulls;
}

/* Sets the buffers for Arrow, the validity only if a row is null. */
static void finish(struct ArrowArray *array) {
    struct held *held = array->private_data;
    array->null_count = count_nulls(held->validity, (size_t)array->length);
    held->buffers[0] = array->null_count ? held->validity : NULL;
    held->buffers[1] = held->values;
    held->buffers[2] = held->data;
}

/* The kinds of the answers, and the struct array that they go into. */
struct collected {
    struct ArrowArray *array;
    uint32_t *kinds;
};

static uint32_t append_all(void *to, struct yk_answers *answers, size_t start, size_t rows) {
    struct collected *collected = to;
    uint32_t status = YK_OK;
    (void)rows;
    for (int64_t i = 0; i < collected->array->n_children && !status; i++)
        status = append(answers, (size_t)i, collected->kinds[i], start, collected->array->children[i]);
    return status;
}

/* Makes the children of a struct array of that many rows, with no values yet. */
static uint32_t make_children(const struct yk_expression *expression, size_t count, size_t rows, struct collected *collected) {
    struct ArrowArray *out = collected->array;
    for (size_t i = 0; i < count; i++) {
        struct yk_type type = {0};
        uint32_t status = yk_answer_type(expression, i, &type);
        if (status || !yk_layout_of_kind(type.kind))
            return status ? status : YK_OTHER_KIND;
        out->children[i] = zeroed(1, sizeof **out->children);
        out->n_children++;
        if (!out->children[i] || !make_held(type.kind, rows, out->children[i]))
            return YK_OUT_OF_MEMORY;
        collected->kinds[i] = type.kind;
    }
    return YK_OK;
}

uint32_t yk_arrow_answer(const struct yk_expression *expression, const struct yk_column *columns, size_t count, size_t rows,
    struct ArrowArray *out, struct yk_error *error) {
    size_t answers = 0;
    yk_reset(error);
    *out = (struct ArrowArray){.length = (int64_t)rows, .n_buffers = 1, .buffers = no_validity, .release = release_array};
    uint32_t status = yk_answer_count(expression, &answers);
    struct collected collected = {out, zeroed(answers, sizeof *collected.kinds)};
    out->children = zeroed(answers, sizeof *out->children);
    if (!status)
        status = out->children && collected.kinds ? make_children(expression, answers, rows, &collected) : YK_OUT_OF_MEMORY;
    if (status)
        yk_refuse(error, status, YK_NONE, "%s", status == YK_OUT_OF_MEMORY ? "out of memory" : "the answers are not collected");
    else
        status = yk_run_batches(expression, columns, count, rows, append_all, &collected, error);
    for (int64_t i = 0; !status && i < out->n_children; i++)
        finish(out->children[i]);
    if (status)
        release_array(out);
    free(collected.kinds);
    return status;
}

static bool share_child(const struct ArrowArray *child, struct ArrowArray *out) {
    struct ArrowArray *shared = malloc(sizeof *shared);
    if (!shared)
        return false;
    struct held *held = child->private_data;
    atomic_fetch_add(&held->users, 1);
    *shared = *child;
    out->children[out->n_children++] = shared;
    return true;
}

uint32_t yk_arrow_share(const struct ArrowArray *array, struct ArrowArray *out) {
    *out = *array;
    out->n_children = 0;
    out->children = zeroed((size_t)array->n_children, sizeof *out->children);
    bool shared = out->children != NULL;
    for (int64_t i = 0; shared && i < array->n_children; i++)
        shared = share_child(array->children[i], out);
    if (!shared)
        release_array(out);
    return shared ? YK_OK : YK_OUT_OF_MEMORY;
}
