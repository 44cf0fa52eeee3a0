/* Arrow's formats whose values are converted: each value goes in and comes out as its kind, and one that has none
 * there is an error with its row. */
#include "check.h"

#include <limits.h>

static void release_nothing(struct ArrowArray *array) { array->release = NULL; }
static void release_no_schema(struct ArrowSchema *schema) { schema->release = NULL; }

enum { most_bytes = 32 };

/* A column `v` of a batch that has a column `n` of whole numbers beside it. Values lie at an odd address, so that
 * the sanitizers see a read that needs another. */
struct given {
    struct ArrowSchema schemas[2], *schema_children[2], schema;
    struct ArrowArray arrays[2], *children[2], batch;
    const void *buffers[2][2], *none[1];
    uint8_t *bytes;
    int64_t numbers[20];
    uint8_t validity[4];
};

static void make(struct given *given, const char *format, size_t width, const int64_t *values, int64_t rows, const uint8_t *validity) {
    memset(given, 0, sizeof *given);
    given->bytes = malloc((size_t)rows * width + 1);
    for (int64_t i = 0; i < rows; i++) {
        uint8_t wide[most_bytes];
        memset(wide, values[i] < 0 ? 0xff : 0, sizeof wide);
        memcpy(wide, &values[i], sizeof *values);
        memcpy(given->bytes + 1 + (size_t)i * width, wide, width);
        given->numbers[i] = i;
    }
    if (validity)
        memcpy(given->validity, validity, sizeof given->validity);
    given->buffers[0][1] = given->numbers;
    given->buffers[1][0] = validity ? given->validity : NULL;
    given->buffers[1][1] = given->bytes + 1;
    for (int i = 0; i < 2; i++) {
        given->schemas[i] = (struct ArrowSchema){.format = i ? format : "l", .name = i ? "v" : "n", .release = release_no_schema};
        given->schemas[i].flags = i && validity ? ARROW_FLAG_NULLABLE : 0;
        given->arrays[i] =
            (struct ArrowArray){.length = rows, .null_count = i && validity ? -1 : 0, .n_buffers = 2, .release = release_nothing};
        given->arrays[i].buffers = given->buffers[i];
        given->schema_children[i] = &given->schemas[i], given->children[i] = &given->arrays[i];
    }
    given->schema = (struct ArrowSchema){.format = "+s", .n_children = 2, .children = given->schema_children, .release = release_no_schema};
    given->batch =
        (struct ArrowArray){.length = rows, .n_buffers = 1, .n_children = 2, .buffers = given->none, .children = given->children};
    given->batch.release = release_nothing;
}

static uint32_t run(struct given *given, const char *text, struct ArrowSchema *schema, struct ArrowArray *out, struct yk_error *error) {
    struct yk_expression expression = {0};
    schema->release = NULL;
    out->release = NULL;
    uint32_t status = yk_arrow_expression_new(text, strlen(text), &given->schema, &expression, error);
    if (!status)
        status = yk_arrow_schema(&expression, schema, error);
    if (!status)
        status = yk_arrow_run(&expression, &given->schema, &given->batch, out, error);
    yk_expression_free(&expression);
    return status;
}

static void release(struct ArrowSchema *schema, struct ArrowArray *out) {
    if (schema->release)
        schema->release(schema);
    if (out->release)
        out->release(out);
}

/* A value of an answer, whatever its width. */
static int64_t value_at(const struct ArrowArray *array, size_t width, size_t row) {
    int64_t words[2] = {0, 0};
    int32_t half;
    memcpy(words, (const char *)array->buffers[1] + row * width, width);
    memcpy(&half, words, sizeof half);
    if (width == 16)
        SAME(words[1], words[0] < 0 ? -1 : 0);
    return width == 4 ? half : words[0];
}

/* The values of a format as those of a kind, which has another format and width. */
static const struct {
    const char *format;
    size_t width;
    int64_t values[4];
    const char *made_format;
    size_t made_width;
    int64_t made[4];
} formats[] = {
    {"tdm", 8, {0, 86400000, -86400000, INT32_MAX *INT64_C(86400000)}, "tdD", 4, {0, 1, -1, INT32_MAX}},
    {"tdm", 8, {INT32_MIN * INT64_C(86400000), 0, 0, 0}, "tdD", 4, {INT32_MIN, 0, 0, 0}},
    {"tss:", 8, {0, 1, -1, INT64_MAX / 1000000}, "tsu:", 8, {0, 1000000, -1000000, INT64_MAX / 1000000 * 1000000}},
    {"tsm:", 8, {0, 1, -1, INT64_MIN / 1000}, "tsu:", 8, {0, 1000, -1000, INT64_MIN / 1000 * 1000}},
    {"tsn:", 8, {0, 1000, -1000, INT64_MAX / 1000 * 1000}, "tsu:", 8, {0, 1, -1, INT64_MAX / 1000}},
    {"tsu:", 8, {0, 1, -1, INT64_MIN}, "tsu:", 8, {0, 1, -1, INT64_MIN}},
    {"tsu:UTC", 8, {0, 1, -1, INT64_MAX}, "tsu:", 8, {0, 1, -1, INT64_MAX}},
    {"tss:Europe/Warsaw", 8, {0, 1, -1, 7}, "tsu:", 8, {0, 1000000, -1000000, 7000000}},
    {"tsm:+01:00", 8, {0, 1, -1, 7}, "tsu:", 8, {0, 1000, -1000, 7000}},
    {"tsn:UTC", 8, {0, 1000, -1000, 7000}, "tsu:", 8, {0, 1, -1, 7}},
    {"d:4,2", 16, {0, 1250, -9999, 9999}, "d:4,2", 16, {0, 1250, -9999, 9999}},
    {"d:18,0", 16, {0, 1, -999999999999999999, 999999999999999999}, "d:18,0", 16, {0, 1, -999999999999999999, 999999999999999999}},
    {"d:38,9", 16, {0, 1, -999999999999999999, 999999999999999999}, "d:18,9", 16, {0, 1, -999999999999999999, 999999999999999999}},
    {"d:76,18,256", 32, {0, 1, -999999999999999999, 999999999999999999}, "d:18,18", 16, {0, 1, -999999999999999999, 999999999999999999}},
    {"d:10,2,64", 8, {0, 1, -9999999999, 9999999999}, "d:10,2", 16, {0, 1, -9999999999, 9999999999}},
    {"d:9,2,32", 4, {0, 1, -999999999, 999999999}, "d:9,2", 16, {0, 1, -999999999, 999999999}},
    {"d:2,3,128", 16, {0, 1, -999, 999}, "d:3,3", 16, {0, 1, -999, 999}},
};

static void each_format(void) {
    for (size_t i = 0; i < COUNT(formats); i++) {
        struct given given;
        struct ArrowSchema schema;
        struct ArrowArray out;
        struct yk_error error = new_error();
        make(&given, formats[i].format, formats[i].width, formats[i].values, 4, NULL);
        /* a timestamp of microseconds is borrowed, and has to be aligned */
        if (strncmp(formats[i].format, "tsu:", 4) == 0)
            given.buffers[1][1] = formats[i].values;
        SAME(run(&given, "v, n, v is null", &schema, &out, &error), YK_OK);
        CHECK(strcmp(schema.children[0]->format, formats[i].made_format) == 0);
        for (size_t row = 0; row < 4; row++)
            SAME(value_at(out.children[0], formats[i].made_width, row), formats[i].made[row]);
        release(&schema, &out);
        free(given.bytes);
    }
}

/* Values that their kind does not have, each in the row after one that it has. */
static const struct {
    const char *format;
    size_t width;
    int64_t value;
    const char *words;
} refused[] = {
    {"tdm", 8, 1, "column \"v\", row 2: 1 of Arrow's format tdm is no whole day"},
    {"tdm", 8, -86399999, "row 2: -86399999 of"},
    {"tdm", 8, (INT32_MAX + INT64_C(1)) * 86400000, "no whole day of 32 bits"},
    {"tdm", 8, (INT32_MIN - INT64_C(1)) * 86400000, "no whole day of 32 bits"},
    {"tss:", 8, INT64_MAX / 1000000 + 1, "row 2: 9223372036855 of Arrow's format tss: is no whole microsecond of 64 bits"},
    {"tss:UTC", 8, INT64_MIN, "of Arrow's format tss: is no"},
    {"tsm:", 8, INT64_MIN / 1000 - 1, "no whole microsecond"},
    {"tsn:", 8, 999, "row 2: 999 of Arrow's format tsn: is no whole microsecond"},
    {"tsn:UTC", 8, -1, "row 2: -1 of Arrow's format tsn: is no"},
    {"d:4,2", 16, 10000, "row 2: a decimal of more than 4 digits"},
    {"d:4,2", 16, -10000, "more than 4 digits"},
    {"d:38,2", 16, 1000000000000000000, "more than 18 digits"},
    {"d:38,2", 16, INT64_MIN, "more than 18 digits"},
    {"d:76,2,256", 32, -1000000000000000000, "more than 18 digits"},
    {"d:10,2,64", 8, 10000000000, "more than 10 digits"},
    {"d:2,1,32", 4, -100, "more than 2 digits"},
};

static void each_refused(void) {
    for (size_t i = 0; i < COUNT(refused); i++) {
        struct given given;
        struct ArrowSchema schema;
        struct ArrowArray out;
        struct yk_error error = new_error();
        const int64_t values[] = {0, 0, refused[i].value, refused[i].value};
        static const uint8_t null[4] = {0x03}, all[4] = {0x0f};
        make(&given, refused[i].format, refused[i].width, values, 4, all);
        SAME(run(&given, "n, v", &schema, &out, &error), YK_UNTAKEN_VALUE);
        SAME(error.row, 2);
        SAME(error.column, 1);
        CHECK(strstr(message, refused[i].words) != NULL);
        CHECK(!out.release);
        release(&schema, &out);
        /* a column that no answer reads is not looked at */
        SAME(run(&given, "n", &schema, &out, &error), YK_OK);
        release(&schema, &out);
        /* nor is what lies under a null */
        memcpy(given.validity, null, sizeof null);
        SAME(run(&given, "v", &schema, &out, &error), YK_OK);
        SAME(out.children[0]->null_count, 2);
        release(&schema, &out);
        free(given.bytes);
    }
    /* a decimal whose upper words are not the sign of its lower one */
    struct given given;
    struct ArrowSchema schema;
    struct ArrowArray out;
    struct yk_error error = new_error();
    make(&given, "d:38,2", 16, (const int64_t[]){5, 5}, 2, NULL);
    given.bytes[1 + 16 + 8] = 1;
    SAME(run(&given, "v", &schema, &out, &error), YK_UNTAKEN_VALUE);
    SAME(error.row, 1);
    release(&schema, &out);
    free(given.bytes);
}

/* Columns and batches that begin at an offset, where a row's bit of the validity is that of its own number. */
static void offsets(void) {
    int64_t values[20];
    static const uint8_t odd[4] = {0xaa, 0xaa, 0xaa, 0};
    for (int64_t i = 0; i < 20; i++)
        values[i] = i % 2 ? 1000 * i : 1;
    for (int64_t child = 0; child < 11; child++)
        for (int64_t whole = 0; child + whole < 17; whole += 3) {
            struct given given;
            struct ArrowSchema schema;
            struct ArrowArray out;
            struct yk_error error = new_error();
            int64_t rows = 17 - child - whole, first = child + whole;
            make(&given, "tsn:", 8, values, 20, odd);
            for (int i = 0; i < 2; i++)
                given.arrays[i].offset = child, given.arrays[i].length = 20 - child;
            given.batch.offset = whole, given.batch.length = rows;
            SAME(run(&given, "v, n, v is null", &schema, &out, &error), YK_OK);
            for (int64_t row = 0; row < rows; row++) {
                SAME(bit(out.children[2]->buffers[1], (size_t)row), (first + row) % 2 == 0);
                if ((first + row) % 2)
                    SAME(value_at(out.children[0], 8, (size_t)row), first + row);
                SAME(value_at(out.children[1], 8, (size_t)row), first + row);
            }
            release(&schema, &out);
            /* the first row that is wrong is the first that is read */
            memset(given.validity, 0xff, sizeof given.validity);
            uint32_t status = run(&given, "v", &schema, &out, &error);
            SAME(status, rows == 1 && first % 2 ? YK_OK : YK_UNTAKEN_VALUE);
            if (status)
                SAME(error.row, first % 2);
            release(&schema, &out);
            free(given.bytes);
        }
}

/* Decimals are compared and added by their places, over more rows than are run at a time. */
static void answers(void) {
    enum { rows = 3 * YK_ARROW_BATCH + 5 };
    int64_t *prices = malloc(2 * rows * sizeof *prices);
    const void *buffers[2] = {NULL, prices};
    struct yk_column column;
    struct yk_expression expression = {0};
    struct yk_error error = new_error();
    struct ArrowSchema child = {.format = "d:12,2", .name = "price", .release = release_no_schema}, *children[] = {&child}, made;
    struct ArrowSchema schema = {.format = "+s", .n_children = 1, .children = children, .release = release_no_schema};
    struct ArrowArray array = {.length = rows, .n_buffers = 2, .buffers = buffers, .release = release_nothing}, out;
    static const char text[] = "price > 10, price + 0.5 as more, price * 2 as twice";
    for (int64_t i = 0; i < rows; i++)
        prices[2 * i] = i - 100, prices[2 * i + 1] = i < 100 ? -1 : 0;
    size_t count = yk_arrow_buffer_count(&child, &array), selected = 0;
    struct yk_bytes *room = malloc(count * sizeof *room);
    uint64_t *numbers = malloc(rows * sizeof *numbers);
    SAME(count, rows / 2 + 1);
    SAME(yk_arrow_column(&child, &array, room, &column, &error), YK_OK);
    SAME(column.kind, YK_DECIMAL(12, 2));
    SAME(yk_arrow_expression_new(text, sizeof text - 1, &schema, &expression, &error), YK_OK);
    SAME(yk_arrow_select(&expression, 0, &column, 1, rows, numbers, &selected, &error), YK_OK);
    SAME(selected, rows - 1101);
    SAME(numbers[0], 1101);
    SAME(yk_arrow_schema(&expression, &made, &error), YK_OK);
    SAME(yk_arrow_answer(&expression, &column, 1, rows, &out, &error), YK_OK);
    CHECK(strncmp(made.children[1]->format, "d:", 2) == 0 && strcmp(made.children[1]->name, "more") == 0);
    CHECK(strcmp(made.children[1]->format + strlen(made.children[1]->format) - 2, ",2") == 0);
    for (int64_t i = 0; i < rows; i++) {
        SAME(value_at(out.children[1], 16, (size_t)i), i - 50);
        SAME(value_at(out.children[2], 16, (size_t)i), 2 * (i - 100));
    }
    struct ArrowArray shared;
    SAME(yk_arrow_share(&out, &shared), YK_OK);
    out.release(&out);
    SAME(value_at(shared.children[1], 16, 0), -50);
    shared.release(&shared);
    made.release(&made);
    yk_expression_free(&expression);
    free(numbers), free(room), free(prices);
}

/* A stream of two batches, of which the second has a wrong value. */
static struct given *streamed;
static int64_t left;

static int stream_schema(struct ArrowArrayStream *stream, struct ArrowSchema *out) {
    (void)stream;
    *out = streamed->schema;
    return 0;
}

static int stream_next(struct ArrowArrayStream *stream, struct ArrowArray *out) {
    (void)stream;
    *out = streamed->batch;
    if (left-- == 1)
        streamed->bytes[1 + 8] = 1;
    return 0;
}

static const char *stream_error(struct ArrowArrayStream *stream) {
    (void)stream;
    return NULL;
}

static void stream_release(struct ArrowArrayStream *stream) { stream->release = NULL; }

static void streams(void) {
    struct given given;
    struct ArrowArrayStream in = {stream_schema, stream_next, stream_error, stream_release, NULL}, out;
    struct ArrowArray batch;
    struct yk_error error = new_error();
    make(&given, "tdm", 8, (const int64_t[]){0, 86400000, 0}, 3, NULL);
    streamed = &given, left = 2;
    SAME(yk_arrow_stream("v + 1", 5, &in, &out, &error), YK_OK);
    SAME(out.get_next(&out, &batch), 0);
    SAME(value_at(batch.children[0], 4, 1), 2);
    batch.release(&batch);
    CHECK(out.get_next(&out, &batch) != 0);
    SAME(yk_arrow_stream_error(&out)->status, YK_UNTAKEN_VALUE);
    SAME(yk_arrow_stream_error(&out)->row, 3 + 1);
    CHECK(strstr(out.get_last_error(&out), "column \"v\", row 4: ") != NULL);
    out.release(&out);
    free(given.bytes);
}

/* An expression over fields of which it reads only some: the others may be of any format and value. */
static void unread(void) {
    struct given given;
    struct ArrowArray out;
    struct yk_error error = new_error();
    struct yk_field fields[] = {field("n", YK_I64, false), field("v", YK_DATE, false)};
    struct yk_expression expression = read_expression("n + 1", fields, 2);
    make(&given, "tdm", 8, (const int64_t[]){1, 2}, 2, NULL);
    SAME(yk_arrow_run(&expression, &given.schema, &given.batch, &out, &error), YK_OK);
    SAME(value_at(out.children[0], 8, 1), 2);
    out.release(&out);
    yk_expression_free(&expression);
    free(given.bytes);
}

int main(void) {
    each_format();
    each_refused();
    offsets();
    answers();
    streams();
    unread();
    if (!faults)
        puts("values: as expected");
    return faults != 0;
}
