/* Arrow's arrays as borrowed columns, and expressions over a schema. */
#include "yurkije_arrow_shared.h"

#include <stdarg.h>
#include <stdio.h>
#include <stdlib.h>
#include <string.h>

void yk_reset(struct yk_error *error) {
    struct yk_text_room message = error->message;
    *error = (struct yk_error){.answer = YK_NONE, .column = YK_NONE, .row = YK_NONE, .byte = YK_NONE};
    error->message = message;
}

/* Writes the words of an error: as many whole characters as fit. */
uint32_t yk_refuse(struct yk_error *error, uint32_t status, size_t column, const char *words, ...) {
    char text[400];
    va_list arguments;
    va_start(arguments, words);
    vsnprintf(text, sizeof text, words, arguments);
    va_end(arguments);
    yk_reset(error);
    error->status = status;
    error->column = column;
    if (error->message.length > 0) {
        size_t length = strlen(text);
        if (length > error->message.length - 1)
            length = error->message.length - 1;
        while (length > 0 && ((unsigned char)text[length] & 0xc0) == 0x80)
            length--;
        memcpy(error->message.at, text, length);
        error->message.at[length] = 0;
        error->message_length = length;
    }
    return status;
}

uint32_t yk_refuse_memory(struct yk_error *error) { return yk_refuse(error, YK_OUT_OF_MEMORY, YK_NONE, "out of memory"); }

/* Where a message names that row: at its start, or else after the name of a column, which may
 * contain anything. */
static char *find_row(char *words, const char *row) {
    size_t length = strlen(row);
    char *found = strncmp(words, row, length) == 0 ? words : NULL;
    for (char *at = found ? NULL : strstr(words, row); at; at = strstr(at + 1, row))
        if (at[length] == ':' || at[length] == ',')
            found = at;
    return found;
}

void yk_add_to_row(struct yk_error *error, size_t before) {
    char old[40], row[40], rest[400];
    if (error->row == YK_NONE || before == 0)
        return;
    snprintf(old, sizeof old, "row %zu", error->row);
    error->row += before;
    snprintf(row, sizeof row, "row %zu", error->row);
    char *at = error->message.length > 0 ? find_row(error->message.at, old) : NULL;
    if (!at)
        return;
    snprintf(rest, sizeof rest, "%s", at + strlen(old));
    size_t room = error->message.length - (size_t)(at - error->message.at);
    snprintf(at, room, "%s%s", row, rest);
    error->message_length = strlen(error->message.at);
}

static const char *name_of(const struct ArrowSchema *schema) { return schema->name ? schema->name : ""; }

uint32_t yk_arrow_field(const struct ArrowSchema *schema, struct yk_field *field, struct yk_error *error) {
    struct layout layout;
    bool taken = yk_layout_of_format(schema->format, &layout);
    yk_reset(error);
    if (taken && !schema->dictionary) {
        field->name = (struct yk_text){name_of(schema), strlen(name_of(schema))};
        field->kind = layout.kind;
        field->nullable = (schema->flags & ARROW_FLAG_NULLABLE) != 0;
        return YK_OK;
    }
    return yk_refuse(error, YK_UNTAKEN_FORMAT, YK_NONE, "column \"%.200s\": Arrow's format %.40s, %s, is not taken", name_of(schema),
        schema->format, taken ? "in a dictionary," : yk_format_name(schema->format));
}

static bool is_view(const struct layout *layout) { return layout->kind == YK_UTF8_VIEW || layout->kind == YK_BINARY_VIEW; }

size_t yk_arrow_buffer_count(const struct ArrowSchema *schema, const struct ArrowArray *array) {
    struct layout layout;
    if (!yk_layout_of_format(schema->format, &layout))
        return 0;
    if (!is_view(&layout))
        return yk_made_count(&layout, array);
    return array->n_buffers <= 3 ? 0 : (size_t)(array->n_buffers - 3);
}

/* What is wrong with an array, without reading any buffer, or NULL. */
static const char *fault_of(const struct layout *layout, const struct ArrowArray *array) {
    if (array->length < 0 || array->offset < 0 || array->offset > INT64_MAX / 64 - array->length)
        return "its length or offset is out of range";
    if (is_view(layout) ? array->n_buffers < 3 : array->n_buffers != layout->buffers)
        return "it has another number of buffers than its format";
    if (!array->buffers)
        return "it has no buffers";
    if (array->length > 0 && !array->buffers[1])
        return "it has rows, and no values";
    if (layout->width > 1 && !layout->made && (uintptr_t)array->buffers[1] % layout->width != 0)
        return "its buffer is not aligned";
    if (layout->buffers == 3 && !is_view(layout) && array->length == 0)
        return NULL;
    if (is_view(layout) && array->n_buffers > 3 && !array->buffers[array->n_buffers - 1])
        return "it has no lengths of its buffers";
    return NULL;
}

/* The bytes that offsets refer to: up to the last one, which proved code checks again. */
static struct yk_bytes data_up_to(const void *at, int64_t last) {
    if (!at || last <= 0)
        return (struct yk_bytes){NULL, 0};
    return (struct yk_bytes){at, (size_t)last};
}

/* Sets the buffers of texts by offsets. Without rows the offsets may be missing. */
static void set_texts(const struct layout *layout, const struct ArrowArray *array, struct yk_column *column) {
    size_t end = column->offset + column->rows;
    if (column->rows == 0)
        return;
    if (layout->width == 4) {
        const int32_t *offsets = array->buffers[1];
        column->offsets32 = (struct yk_i32s){offsets, end + 1};
        column->data = data_up_to(array->buffers[2], offsets[end]);
    } else {
        const int64_t *offsets = array->buffers[1];
        column->offsets64 = (struct yk_i64s){offsets, end + 1};
        column->data = data_up_to(array->buffers[2], offsets[end]);
    }
}

/* Sets the views and their buffers, whose lengths are in the last one. */
static void set_views(const struct ArrowArray *array, struct yk_bytes *buffers, struct yk_column *column) {
    size_t count = (size_t)(array->n_buffers - 3);
    const int64_t *lengths = array->buffers[array->n_buffers - 1];
    column->views = (struct yk_views){(const uint8_t(*)[16])array->buffers[1], column->offset + column->rows};
    for (size_t i = 0; i < count; i++)
        buffers[i] = data_up_to(array->buffers[i + 2], lengths[i]);
    column->buffers = (struct yk_buffers){buffers, count};
}

void yk_set_values(const void *at, struct yk_column *column) {
    size_t end = column->offset + column->rows;
    switch (column->kind % 256) {
    case YK_BOOL: column->bools = (struct yk_bytes){at, yk_bytes_for(end)}; break;
    case YK_I8: column->i8 = (struct yk_i8s){at, end}; break;
    case YK_I16: column->i16 = (struct yk_i16s){at, end}; break;
    case YK_I32:
    case YK_DATE: column->i32 = (struct yk_i32s){at, end}; break;
    case YK_I64:
    case YK_TIMESTAMP:
    case YK_DECIMAL64: column->i64 = (struct yk_i64s){at, end}; break;
    case YK_F32: column->f32 = (struct yk_f32s){at, end}; break;
    case YK_F64: column->f64 = (struct yk_f64s){at, end}; break;
    case YK_U8: column->u8 = (struct yk_bytes){at, end}; break;
    case YK_U16: column->u16 = (struct yk_u16s){at, end}; break;
    case YK_U32: column->u32 = (struct yk_u32s){at, end}; break;
    default: column->u64 = (struct yk_u64s){at, end}; break;
    }
}

uint32_t yk_arrow_column(const struct ArrowSchema *schema, const struct ArrowArray *array, struct yk_bytes *buffers,
    struct yk_column *column, struct yk_error *error) {
    struct yk_field field;
    uint32_t status = yk_arrow_field(schema, &field, error);
    if (status)
        return status;
    struct layout layout;
    yk_layout_of_format(schema->format, &layout);
    const char *fault = fault_of(&layout, array);
    if (fault)
        return yk_refuse(error, YK_MALFORMED_ARRAY, YK_NONE, "column \"%.200s\": a malformed array: %s", name_of(schema), fault);
    *column = (struct yk_column){.kind = layout.kind, .nullable = field.nullable};
    column->rows = (size_t)array->length;
    column->offset = (size_t)array->offset;
    if (array->buffers[0] && array->null_count != 0)
        column->validity = (struct yk_bytes){array->buffers[0], yk_bytes_for(column->offset + column->rows)};
    if (column->rows == 0)
        column->offset = 0, column->validity.length = 0;
    else if (is_view(&layout))
        set_views(array, buffers, column);
    else if (layout.buffers == 3)
        set_texts(&layout, array, column);
    else if (layout.made)
        return yk_make_values(&layout, array, name_of(schema), buffers, column, error);
    else
        yk_set_values(array->buffers[1], column);
    return YK_OK;
}

/* The child of a batch that may itself begin at an offset. */
struct ArrowArray yk_child_of(const struct ArrowArray *batch, int64_t child) {
    struct ArrowArray array = *batch->children[child];
    array.offset += batch->offset;
    array.length = batch->length;
    return array;
}

static bool has_null_row(const struct ArrowArray *batch) {
    if (batch->null_count == 0 || batch->n_buffers < 1 || !batch->buffers || !batch->buffers[0])
        return false;
    const uint8_t *bits = batch->buffers[0];
    for (int64_t i = batch->offset; i < batch->offset + batch->length; i++)
        if (!(bits[i / 8] >> i % 8 & 1))
            return true;
    return false;
}

/* Why a child does not have the rows of its batch, or NULL. */
static const char *child_fault(const struct ArrowArray *batch, const struct ArrowArray *child) {
    if (child->offset < 0 || child->length < 0 || child->offset > INT64_MAX / 64 - child->length)
        return "the length or offset of a child is out of range";
    if (child->length < batch->length || child->length - batch->length < batch->offset)
        return "a child is shorter than the batch";
    return NULL;
}

uint32_t yk_check_batch(const struct ArrowSchema *schema, const struct ArrowArray *batch, struct yk_error *error) {
    const char *fault = NULL;
    yk_reset(error);
    if (strcmp(schema->format, "+s") != 0)
        fault = "it is no struct array";
    else if (batch->n_children != schema->n_children)
        fault = "it has another number of children than its schema";
    else if (batch->length < 0 || batch->offset < 0 || batch->offset > INT64_MAX / 64 - batch->length)
        fault = "its length or offset is out of range";
    else if (has_null_row(batch))
        fault = "a row of it is null as a whole";
    for (int64_t i = 0; !fault && i < batch->n_children; i++)
        fault = child_fault(batch, batch->children[i]);
    return fault ? yk_refuse(error, YK_MALFORMED_ARRAY, YK_NONE, "a malformed batch: %s", fault) : YK_OK;
}

static bool is_word(char c) { return (c >= 'a' && c <= 'z') || (c >= 'A' && c <= 'Z') || (c >= '0' && c <= '9') || c == '_'; }

/* Whether that name stands at a byte of a text, bare or in double quotes. */
static bool is_name_at(struct yk_text text, size_t at, const char *name) {
    size_t length = strlen(name), quotes = text.at[at] == '"', end = at + quotes + length;
    if (end + quotes > text.length || memcmp(text.at + at + quotes, name, length) != 0)
        return false;
    return quotes ? text.at[end] == '"' : end == text.length || !is_word(text.at[end]);
}

/* The fields of all columns with a supported format. */
static size_t collect_fields(const struct ArrowSchema *schema, struct yk_field *fields) {
    struct yk_error unheard = {0};
    size_t count = 0;
    for (int64_t i = 0; i < schema->n_children; i++)
        if (!yk_arrow_field(schema->children[i], &fields[count], &unheard))
            count++;
    return count;
}

/* Reads a text over fields, without those that make no scope: a name that is not UTF-8, or the second of a name. */
static uint32_t read_over_all(struct yk_text text, struct yk_field *fields, size_t *count, struct yk_expression *expression,
    struct yk_error *error) {
    uint32_t status = yk_expression_new(text.at, text.length, fields, *count, expression, error);
    while ((status == YK_NAME_TWICE || status == YK_NOT_A_TEXT) && error->column < *count) {
        *count -= 1;
        memmove(fields + error->column, fields + error->column + 1, (*count - error->column) * sizeof *fields);
        status = yk_expression_new(text.at, text.length, fields, *count, expression, error);
    }
    return status;
}

/* Whether one of those fields has the name of another. */
static bool is_among(const struct yk_field *field, const struct yk_field *fields, const size_t *numbers, size_t count) {
    for (size_t i = 0; i < count; i++) {
        struct yk_text name = fields[numbers[i]].name;
        if (name.length == field->name.length && memcmp(name.at, field->name.at, name.length) == 0)
            return true;
    }
    return false;
}

/* Reads a text again over the fields that its answers read, which `numbers` has room for. Two columns of such a name are an
 * error. */
static uint32_t read_over_read(const struct ArrowSchema *schema, struct yk_text text, const struct yk_field *fields, size_t count,
    struct yk_field *kept, size_t *numbers, struct yk_expression *expression, struct yk_error *error) {
    struct yk_error unheard = {0};
    size_t read = 0, keep = 0;
    uint32_t status = yk_fields_read(expression, numbers, count, &read);
    if (status)
        return yk_refuse_memory(error);
    for (int64_t i = 0; i < schema->n_children; i++)
        if (!yk_arrow_field(schema->children[i], &kept[keep], &unheard) && is_among(&kept[keep], fields, numbers, read))
            keep++;
    return yk_expression_new(text.at, text.length, kept, keep, expression, error);
}

/* Reports the column at the reported byte, if it exists and has an unsupported format. */
static uint32_t refuse_untaken(const struct ArrowSchema *schema, struct yk_text text, struct yk_error *error) {
    struct yk_error told = *error;
    for (int64_t i = 0; i < schema->n_children; i++) {
        struct yk_field field;
        if (!is_name_at(text, told.byte, name_of(schema->children[i])) || !yk_arrow_field(schema->children[i], &field, error))
            continue;
        error->byte = told.byte, error->line = told.line, error->character = told.character;
        return error->status;
    }
    *error = told;
    return YK_OK;
}

/* An expression over all columns, and then over those that it reads. */
uint32_t yk_arrow_expression_new(
    const char *text, size_t length, const struct ArrowSchema *schema, struct yk_expression *expression, struct yk_error *error) {
    struct yk_text words = {text, length};
    yk_reset(error);
    yk_expression_free(expression);
    if (strcmp(schema->format, "+s") != 0)
        return yk_refuse(error, YK_MALFORMED_ARRAY, YK_NONE, "a malformed schema: it is no struct");
    size_t most = (size_t)schema->n_children + 1;
    struct yk_field *fields = malloc(2 * most * sizeof *fields);
    size_t *numbers = malloc(most * sizeof *numbers), count = 0;
    uint32_t status = fields && numbers ? YK_OK : yk_refuse_memory(error);
    if (!status) {
        count = collect_fields(schema, fields);
        status = read_over_all(words, fields, &count, expression, error);
        if (!status)
            status = read_over_read(schema, words, fields, count, fields + most, numbers, expression, error);
        else if (status == YK_SCOPE_MISMATCH && error->byte < length) {
            uint32_t untaken = refuse_untaken(schema, words, error);
            status = untaken ? untaken : status;
        }
    }
    free(fields);
    free(numbers);
    return status;
}
