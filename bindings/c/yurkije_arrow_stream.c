/* Batches and streams of Arrow. All function pointers of streams are here, in C: the library
 * neither calls nor is called through one. */
#include "yurkije_arrow_shared.h"

#include <errno.h>
#include <stdio.h>
#include <stdlib.h>
#include <string.h>

/* The child of that name, or -1 if there is none. */
static int64_t child_named(const struct ArrowSchema *schema, const char *name, size_t length) {
    for (int64_t i = 0; i < schema->n_children; i++) {
        const char *other = schema->children[i]->name;
        if (other && strlen(other) == length && memcmp(other, name, length) == 0)
            return i;
    }
    return -1;
}

/* The columns of an expression in batches of one schema: their children, which of them an answer
 * reads, and space for the borrowed ones. */
struct places {
    size_t count;
    int64_t *children;
    bool *are_read;
    struct yk_column *columns;
};

static void free_places(struct places *places) {
    free(places->children);
    free(places->are_read);
    free(places->columns);
    *places = (struct places){0};
}

/* Finds the child of one field. */
static uint32_t find_place(
    const struct yk_expression *expression, const struct ArrowSchema *schema, size_t field, int64_t *child, struct yk_error *error) {
    size_t length = 0;
    char none[1];
    yk_field_name(expression, field, none, 0, &length);
    char *name = malloc(length + 1);
    if (!name)
        return yk_refuse_memory(error);
    uint32_t status = yk_field_name(expression, field, name, length, &length);
    name[status ? 0 : length] = 0;
    *child = status ? -1 : child_named(schema, name, length);
    if (*child < 0)
        status = yk_refuse(error, YK_SCOPE_MISMATCH, field, "column %zu (%.200s): missing", field, name);
    free(name);
    return status;
}

static uint32_t mark_read(const struct yk_expression *expression, struct places *places, struct yk_error *error) {
    size_t *numbers = malloc(places->count * sizeof *numbers + 1), count = 0;
    uint32_t status = numbers ? yk_fields_read(expression, numbers, places->count, &count) : YK_OUT_OF_MEMORY;
    memset(places->are_read, 0, places->count * sizeof *places->are_read);
    for (size_t i = 0; i < count && !status; i++)
        places->are_read[numbers[i]] = true;
    free(numbers);
    return status ? yk_refuse_memory(error) : YK_OK;
}

static uint32_t find_places(
    const struct yk_expression *expression, const struct ArrowSchema *schema, struct places *places, struct yk_error *error) {
    yk_reset(error);
    *places = (struct places){0};
    uint32_t status = yk_field_count(expression, &places->count);
    if (status)
        return yk_refuse(error, status, YK_NONE, "the expression is empty");
    places->children = malloc(places->count * sizeof *places->children + 1);
    places->are_read = malloc(places->count * sizeof *places->are_read + 1);
    places->columns = malloc(places->count * sizeof *places->columns + 1);
    if (!places->children || !places->are_read || !places->columns)
        status = yk_refuse_memory(error);
    else
        status = mark_read(expression, places, error);
    for (size_t i = 0; i < places->count && !status; i++)
        status = find_place(expression, schema, i, &places->children[i], error);
    if (status)
        free_places(places);
    return status;
}

/* How many slices the columns of a batch need that are read. */
static size_t count_buffers(const struct places *places, const struct ArrowSchema *schema, const struct ArrowArray *batch) {
    size_t count = 0;
    for (size_t i = 0; i < places->count; i++) {
        struct ArrowArray array = yk_child_of(batch, places->children[i]);
        size_t more = places->are_read[i] ? yk_arrow_buffer_count(schema->children[places->children[i]], &array) : 0;
        count = more < SIZE_MAX / 64 - count ? count + more : SIZE_MAX / 64;
    }
    return count;
}

/* Columns that no answer reads are not looked at. */
static uint32_t borrow_columns(struct places *places, const struct ArrowSchema *schema, const struct ArrowArray *batch,
    struct yk_bytes *buffers, struct yk_error *error) {
    uint32_t status = YK_OK;
    for (size_t i = 0; i < places->count && !status; i++) {
        int64_t child = places->children[i];
        struct ArrowArray array = yk_child_of(batch, child);
        places->columns[i] = (struct yk_column){.kind = YK_BOOL, .rows = (size_t)batch->length};
        if (!places->are_read[i])
            continue;
        status = yk_arrow_column(schema->children[child], &array, buffers, &places->columns[i], error);
        if (status)
            error->column = i;
        else
            buffers += yk_arrow_buffer_count(schema->children[child], &array);
    }
    return status;
}

/* Runs a checked batch. Rows are reported from that number on. */
static uint32_t run_places(const struct yk_expression *expression, struct places *places, const struct ArrowSchema *schema,
    const struct ArrowArray *batch, size_t first, struct ArrowArray *out, struct yk_error *error) {
    struct yk_bytes *buffers = malloc(count_buffers(places, schema, batch) * sizeof *buffers + 1);
    if (!buffers)
        return yk_refuse_memory(error);
    uint32_t status = borrow_columns(places, schema, batch, buffers, error);
    if (!status)
        status = yk_arrow_answer(expression, places->columns, places->count, (size_t)batch->length, out, error);
    free(buffers);
    if (status)
        yk_add_to_row(error, first);
    return status;
}

uint32_t yk_arrow_run(const struct yk_expression *expression, const struct ArrowSchema *schema, const struct ArrowArray *batch,
    struct ArrowArray *out, struct yk_error *error) {
    struct places places;
    out->release = NULL;
    uint32_t status = yk_check_batch(schema, batch, error);
    if (!status)
        status = find_places(expression, schema, &places, error);
    if (status)
        return status;
    status = run_places(expression, &places, schema, batch, 0, out, error);
    free_places(&places);
    return status;
}

/* The state of a stream that comes out. It has no handle: each call reads the text again, so
 * that each may be made by another thread. */
struct running {
    struct ArrowArrayStream in;
    struct ArrowSchema schema;
    char *text;
    size_t length;
    size_t rows; /* of the batches before */
    struct yk_error error;
    char message[512];
};

static void free_running(struct running *running) {
    if (running->schema.release)
        running->schema.release(&running->schema);
    if (running->in.release)
        running->in.release(&running->in);
    free(running->text);
    free(running);
}

static void release_stream(struct ArrowArrayStream *stream) {
    free_running(stream->private_data);
    stream->release = NULL;
}

static const char *stream_error(struct ArrowArrayStream *stream) {
    const struct running *running = stream->private_data;
    return running->message[0] ? running->message : NULL;
}

const struct yk_error *yk_arrow_stream_error(struct ArrowArrayStream *stream) {
    const struct running *running = stream->private_data;
    return &running->error;
}

/* The nearest number of the C library. */
static int errno_of(uint32_t status) {
    switch (status) {
    case YK_OK: return 0;
    case YK_OUT_OF_MEMORY: return ENOMEM;
    case YK_STREAM_FAILED: return EIO;
    default: return EINVAL;
    }
}

/* Reports that the stream that came in ended with an error. */
static uint32_t refuse_stream(struct ArrowArrayStream *in, int code, struct yk_error *error) {
    const char *words = in->get_last_error ? in->get_last_error(in) : NULL;
    return yk_refuse(error, YK_STREAM_FAILED, YK_NONE, "the stream that came in: %.300s", words ? words : strerror(code));
}

/* Reads the text, and gives the expression's schema, or its answers over a batch. */
static uint32_t with_expression(
    struct running *running, struct ArrowSchema *schema, const struct ArrowArray *batch, struct ArrowArray *out) {
    struct yk_expression expression = {0};
    struct places places = {0};
    uint32_t status = yk_arrow_expression_new(running->text, running->length, &running->schema, &expression, &running->error);
    if (!status && schema)
        status = yk_arrow_schema(&expression, schema, &running->error);
    if (!status && batch)
        status = find_places(&expression, &running->schema, &places, &running->error);
    if (!status && batch)
        status = run_places(&expression, &places, &running->schema, batch, running->rows, out, &running->error);
    free_places(&places);
    yk_expression_free(&expression);
    return status;
}

static int stream_schema(struct ArrowArrayStream *stream, struct ArrowSchema *out) {
    out->release = NULL;
    return errno_of(with_expression(stream->private_data, out, NULL, NULL));
}

static int stream_next(struct ArrowArrayStream *stream, struct ArrowArray *out) {
    struct running *running = stream->private_data;
    struct ArrowArray batch = {.release = NULL};
    out->release = NULL;
    int code = running->in.get_next(&running->in, &batch);
    if (code)
        return errno_of(refuse_stream(&running->in, code, &running->error));
    if (!batch.release)
        return 0;
    uint32_t status = yk_check_batch(&running->schema, &batch, &running->error);
    if (!status)
        status = with_expression(running, NULL, &batch, out);
    running->rows += (size_t)batch.length;
    batch.release(&batch);
    return errno_of(status);
}

/* Takes the schema and the text of a stream that was moved, and reads them once. */
static uint32_t start(struct running *running, const char *text, size_t length, struct yk_error *error) {
    int code = running->in.get_schema(&running->in, &running->schema);
    if (code) {
        running->schema.release = NULL;
        return refuse_stream(&running->in, code, error);
    }
    struct yk_expression expression = {0};
    uint32_t status = yk_arrow_expression_new(text, length, &running->schema, &expression, error);
    yk_expression_free(&expression);
    running->text = status ? NULL : malloc(length + 1);
    if (running->text)
        memcpy(running->text, text, length);
    return status || running->text ? status : yk_refuse_memory(error);
}

uint32_t yk_arrow_stream(
    const char *text, size_t length, struct ArrowArrayStream *in, struct ArrowArrayStream *out, struct yk_error *error) {
    struct running *running = malloc(sizeof *running);
    out->release = NULL;
    if (!running) {
        in->release(in);
        return yk_refuse_memory(error);
    }
    *running = (struct running){.in = *in, .length = length};
    running->error.message = (struct yk_text_room){running->message, sizeof running->message};
    in->release = NULL;
    uint32_t status = start(running, text, length, error);
    if (status) {
        free_running(running);
        return status;
    }
    *out = (struct ArrowArrayStream){stream_schema, stream_next, stream_error, release_stream, running};
    return YK_OK;
}
