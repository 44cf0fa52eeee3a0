/* The shim for Arrow's C data interface, over arrays that are written here by hand. */
#include "check.h"

static void release_nothing(struct ArrowArray *array) { array->release = NULL; }
static void release_no_schema(struct ArrowSchema *schema) { schema->release = NULL; }

static struct ArrowSchema schema_of(const char *format, const char *name, bool nullable) {
    return (struct ArrowSchema){.format = format, .name = name, .flags = nullable ? ARROW_FLAG_NULLABLE : 0, .release = release_no_schema};
}

static struct ArrowArray array_of(int64_t length, int64_t buffers, const void **at) {
    return (struct ArrowArray){.length = length, .null_count = -1, .n_buffers = buffers, .buffers = at, .release = release_nothing};
}

static const uint8_t valid[] = {0x0b}; /* of four rows the third is null */
static const int64_t i64s[] = {5, 6, 7, 8};
static const uint8_t bools[] = {0x05};
static const char data[] = "nuta bolt of more than twelve byteszz";
static const int32_t ends[] = {0, 3, 35, 35, 37};
static const int64_t large_ends[] = {0, 3, 35, 35, 37};
static const int64_t lengths[] = {37};
static uint8_t views[4][16] = {{3, 0, 0, 0, 'n', 'u', 't'}, {32, 0, 0, 0, 'a', ' ', 'b', 'o', 0, 0, 0, 0, 3}, {0}, {2, 0, 0, 0, 'z', 'z'}};
static const void *of_i64[] = {valid, i64s}, *of_bools[] = {valid, bools}, *of_texts[] = {valid, ends, data};
static const void *of_large[] = {valid, large_ends, data}, *of_views[] = {valid, views, data, lengths};

/* A batch of the columns n (l), b (b), t (u), T (U), v (vu), and f (e), which is not supported. */
static struct ArrowSchema schemas[6], *schema_children[6], batch_schema;
static struct ArrowArray arrays[6], *children[6], batch;

static void make_batch(void) {
    static const char *const formats[] = {"l", "b", "u", "U", "vu", "e"}, *const names[] = {"n", "b", "t", "T", "v", "f"};
    const void **buffers[] = {of_i64, of_bools, of_texts, of_large, of_views, of_i64};
    static const int64_t counts[] = {2, 2, 3, 3, 4, 2};
    static const void *none[] = {NULL};
    for (int i = 0; i < 6; i++) {
        schemas[i] = schema_of(formats[i], names[i], true);
        arrays[i] = array_of(4, counts[i], buffers[i]);
        schema_children[i] = &schemas[i];
        children[i] = &arrays[i];
    }
    batch_schema = schema_of("+s", NULL, false);
    batch_schema.n_children = 6;
    batch_schema.children = schema_children;
    batch = array_of(4, 1, none);
    batch.n_children = 6;
    batch.children = children;
}

/* Runs a text over the batch; errors are printed. */
static uint32_t run(const char *text, struct ArrowSchema *schema, struct ArrowArray *out, struct yk_error *error) {
    struct yk_expression expression = {0};
    out->release = NULL;
    schema->release = NULL;
    uint32_t status = yk_arrow_expression_new(text, strlen(text), &batch_schema, &expression, error);
    if (!status)
        status = yk_arrow_schema(&expression, schema, error);
    if (!status)
        status = yk_arrow_run(&expression, &batch_schema, &batch, out, error);
    yk_expression_free(&expression);
    return status;
}

static void release(struct ArrowSchema *schema, struct ArrowArray *out) {
    if (schema->release)
        schema->release(schema);
    if (out->release)
        out->release(out);
}

/* Each format goes in, and the answers match their schema. */
static void formats(void) {
    struct ArrowSchema schema;
    struct ArrowArray out;
    struct yk_error error = new_error();
    make_batch();
    SAME(run("n + 1 as more, b, t, T, v, n is null as missing", &schema, &out, &error), YK_OK);
    static const char *const expected[] = {"l", "b", "u", "u", "u", "b"};
    SAME(out.n_children, 6);
    SAME(schema.n_children, 6);
    for (int i = 0; i < 6; i++) {
        CHECK(strcmp(schema.children[i]->format, expected[i]) == 0);
        SAME(schema.children[i]->flags, i < 5 ? ARROW_FLAG_NULLABLE : 0);
        SAME(out.children[i]->length, 4);
        SAME(out.children[i]->null_count, i < 5);
        SAME(out.children[i]->n_buffers, i < 2 || i == 5 ? 2 : 3);
    }
    CHECK(strcmp(schema.children[0]->name, "more") == 0);
    const int64_t *more = out.children[0]->buffers[1];
    CHECK(more[0] == 6 && more[1] == 7 && more[3] == 9 && (*(const uint8_t *)out.children[0]->buffers[0] & 15) == 11);
    SAME(*(const uint8_t *)out.children[5]->buffers[1] & 15, 4);
    for (int i = 2; i < 5; i++) {
        const int32_t *offsets = out.children[i]->buffers[1];
        CHECK(offsets[0] == 0 && offsets[1] == 3 && offsets[2] == 35 && offsets[3] == 35 && offsets[4] == 37);
        CHECK(memcmp(out.children[i]->buffers[2], data, 37) == 0);
    }
    /* a child that is moved out is released separately */
    struct ArrowArray moved = *out.children[2];
    out.children[2]->release = NULL;
    release(&schema, &out);
    CHECK(!out.release && !schema.release && memcmp(moved.buffers[2], data, 37) == 0);
    moved.release(&moved);
}

/* Arrays that begin at an offset of their own, of the batch's, or of both. */
static void offsets(void) {
    struct ArrowSchema schema;
    struct ArrowArray out;
    struct yk_error error = new_error();
    make_batch();
    for (int i = 0; i < 6; i++)
        arrays[i].offset = 1, arrays[i].length = 3;
    batch.offset = 1;
    batch.length = 2;
    SAME(run("n, t, v, b", &schema, &out, &error), YK_OK);
    SAME(out.length, 2);
    SAME(((const int64_t *)out.children[0]->buffers[1])[1], 8);
    SAME(*(const uint8_t *)out.children[0]->buffers[0] & 3, 2);
    for (int i = 1; i < 3; i++)
        CHECK(((const int32_t *)out.children[i]->buffers[1])[2] == 2 && memcmp(out.children[i]->buffers[2], "zz", 2) == 0);
    SAME(*(const uint8_t *)out.children[3]->buffers[1] & 3 & *(const uint8_t *)out.children[3]->buffers[0], 0);
    release(&schema, &out);
}

/* Under a null a view may be anything. */
static void views_under_nulls(void) {
    struct ArrowSchema schema;
    struct ArrowArray out;
    struct yk_error error = new_error();
    uint8_t kept[16];
    make_batch();
    memcpy(kept, views[2], 16);
    memset(views[2], 0xff, 16);
    SAME(run("v", &schema, &out, &error), YK_OK);
    SAME(((const int32_t *)out.children[0]->buffers[1])[3], 35);
    release(&schema, &out);
    memcpy(views[2], kept, 16);
    views[1][12] = 9;
    SAME(run("v", &schema, &out, &error), YK_VIEW_OUT_OF_RANGE);
    SAME(error.row, 1);
    SAME(error.column, 0);
    views[1][12] = 3;
    release(&schema, &out);
}

/* An unsupported column is an error with its name if an answer reads it, and otherwise allowed. */
static void untaken(void) {
    struct ArrowSchema schema;
    struct ArrowArray out;
    struct yk_error error = new_error();
    make_batch();
    static const char *const cases[][2] = {
        {"e", "float16"},
        {"d:19,19", "decimal of other bits, of more than 18 places"},
        {"d:10,-2", "places before the point"},
        {"d:10,2,48", "other bits"},
        {"d:10", "decimal"},
        {"tsx:", "unknown"},
        {"tDm", "duration"},
        {"ttm", "time"},
        {"+l", "list"},
        {"n", "null"},
        {"w:16", "fixed-size binary"},
        {"+s", "struct"},
        {"?", "unknown"},
    };
    for (size_t i = 0; i < COUNT(cases); i++) {
        schemas[5].format = cases[i][0];
        SAME(run("n < 7 and f < 2", &schema, &out, &error), YK_UNTAKEN_FORMAT);
        SAME(error.byte, 10);
        CHECK(strstr(message, cases[i][1]) && strstr(message, "column \"f\""));
        SAME(run("\"f\"", &schema, &out, &error), YK_UNTAKEN_FORMAT);
        SAME(run("n", &schema, &out, &error), YK_OK);
        release(&schema, &out);
    }
    schemas[5].format = "l";
    schemas[5].dictionary = &schemas[2];
    SAME(run("f", &schema, &out, &error), YK_UNTAKEN_FORMAT);
    CHECK(strstr(message, "dictionary"));
    schemas[5].dictionary = NULL;
    SAME(run("g", &schema, &out, &error), YK_SCOPE_MISMATCH);
    SAME(run("'f' = t and t", &schema, &out, &error), YK_TYPE_MISMATCH);
}

/* Whether the first answer of a text over the batch has that format and those values, of so many bytes a row; the third row is null. */
static bool gives(const char *text, const char *format, const void *values, size_t width) {
    struct ArrowSchema schema;
    struct ArrowArray out;
    struct yk_error error = new_error();
    SAME(run(text, &schema, &out, &error), YK_OK);
    const char *found = out.children[0]->buffers[1];
    bool same = strcmp(schema.children[0]->format, format) == 0 && out.children[0]->null_count == 1;
    same = same && memcmp(found, values, 2 * width) == 0 && memcmp(found + 3 * width, (const char *)values + 3 * width, width) == 0;
    release(&schema, &out);
    return same;
}

/* Floats, dates and timestamps go in and come out. */
static void kinds(void) {
    static const double doubles[] = {1.5, -2.25, 0, 1e300};
    static const float floats[] = {1.5f, -2.25f, 0, 1e30f};
    static const int32_t days[] = {0, 19723, 0, -1}, next[] = {1, 19724, 0, 0};
    static const int64_t times[] = {0, 86400000001, 0, -1};
    static const uint8_t above[] = {0x09}, after[] = {0x02};
    static const void *of_doubles[] = {valid, doubles}, *of_floats[] = {valid, floats}, *of_days[] = {valid, days}, *of_times[] = {valid, times};
    struct ArrowSchema schema;
    struct ArrowArray out;
    struct yk_error error = new_error();
    make_batch();
    schemas[5].format = "g";
    arrays[5] = array_of(4, 2, of_doubles);
    CHECK(gives("f", "g", doubles, sizeof *doubles));
    SAME(run("f > 0.5", &schema, &out, &error), YK_OK);
    SAME(*(const uint8_t *)out.children[0]->buffers[1] & 0x0b, above[0]);
    release(&schema, &out);
    schemas[5].format = "f";
    arrays[5] = array_of(4, 2, of_floats);
    CHECK(gives("f", "f", floats, sizeof *floats));
    schemas[5].format = "tdD";
    arrays[5] = array_of(4, 2, of_days);
    CHECK(gives("f", "tdD", days, sizeof *days) && gives("f + 1", "tdD", next, sizeof *next));
    SAME(run("f > '2000-01-01'", &schema, &out, &error), YK_OK);
    SAME(*(const uint8_t *)out.children[0]->buffers[1] & 0x0b, after[0]);
    release(&schema, &out);
    SAME(run("f > 'soon'", &schema, &out, &error), YK_NOT_OF_KIND);
    schemas[5].format = "tsu:";
    arrays[5] = array_of(4, 2, of_times);
    CHECK(gives("f", "tsu:", times, sizeof *times));
}

/* Arrays that are no batch of their schema. */
static void malformed(void) {
    struct ArrowSchema schema;
    struct ArrowArray out;
    struct yk_error error = new_error();
#define MALFORMED(change)                                                                                                                  \
    make_batch();                                                                                                                          \
    change;                                                                                                                                \
    SAME(run("n, t, v", &schema, &out, &error), YK_MALFORMED_ARRAY);                                                                       \
    release(&schema, &out)
    static const void *no_values[] = {NULL, NULL, NULL}, *no_lengths[] = {NULL, views, data, NULL};
    MALFORMED(arrays[0].length = 3);
    MALFORMED(arrays[0].offset = -1);
    MALFORMED(arrays[0].offset = INT64_MAX);
    MALFORMED(arrays[0].n_buffers = 3);
    MALFORMED(arrays[0].buffers = NULL);
    MALFORMED(arrays[0].buffers = no_values);
    MALFORMED(arrays[2].buffers = no_values);
    static const void *askew[] = {NULL, (const char *)i64s + 4};
    MALFORMED(arrays[0].buffers = askew; arrays[0].length = batch.length = 3);
    MALFORMED(arrays[4].n_buffers = 2);
    MALFORMED(arrays[4].buffers = no_lengths);
    MALFORMED(batch.length = -1);
    MALFORMED(batch.offset = 2);
    MALFORMED(batch.n_children = 5);
    MALFORMED(batch_schema.format = "l");
    static const void *with_null[] = {valid};
    MALFORMED(batch.buffers = with_null);
#undef MALFORMED
    make_batch();
    arrays[2].buffers = no_values;
    batch.length = 0;
    for (int i = 0; i < 6; i++)
        arrays[i].length = 0;
    SAME(run("n, t, v", &schema, &out, &error), YK_OK);
    release(&schema, &out);
    make_batch();
    schemas[0].flags = 0;
    SAME(run("n", &schema, &out, &error), YK_UNEXPECTED_NULL);
    SAME(error.row, 2);
    release(&schema, &out);
}

/* A stream of the batch, that many times, then an error or the end. */
struct source {
    int left;
    bool fails;
    bool *released;
};

static int batches_released;

static void release_counted(struct ArrowArray *array) {
    batches_released++;
    array->release = NULL;
}

static int source_schema(struct ArrowArrayStream *stream, struct ArrowSchema *out) {
    (void)stream;
    *out = batch_schema;
    return 0;
}

static int source_next(struct ArrowArrayStream *stream, struct ArrowArray *out) {
    struct source *source = stream->private_data;
    *out = batch;
    out->release = release_counted;
    if (source->left-- > 0)
        return 0;
    out->release = NULL;
    return source->fails ? 5 : 0;
}

static const char *source_error(struct ArrowArrayStream *stream) {
    (void)stream;
    return "the disk is gone";
}

static void source_release(struct ArrowArrayStream *stream) {
    *((struct source *)stream->private_data)->released = true;
    stream->release = NULL;
}

static void streams(void) {
    bool released = false;
    struct source source = {2, true, &released};
    struct ArrowArrayStream in = {source_schema, source_next, source_error, source_release, &source}, out;
    struct ArrowSchema schema;
    struct ArrowArray answers;
    struct yk_error error = new_error();
    make_batch();
    SAME(yk_arrow_stream("n + 1", 5, &in, &out, &error), YK_OK);
    CHECK(!in.release);
    SAME(out.get_schema(&out, &schema), 0);
    CHECK(strcmp(schema.children[0]->name, "n + 1") == 0);
    schema.release(&schema);
    for (int i = 0; i < 2; i++) {
        SAME(out.get_next(&out, &answers), 0);
        SAME(answers.length, 4);
        answers.release(&answers);
    }
    CHECK(out.get_next(&out, &answers) != 0 && strstr(out.get_last_error(&out), "the disk is gone"));
    SAME(yk_arrow_stream_error(&out)->status, YK_STREAM_FAILED);
    out.release(&out);
    CHECK(released && !out.release && batches_released == 2);
    in = (struct ArrowArrayStream){source_schema, source_next, source_error, source_release, &source};
    released = false;
    SAME(yk_arrow_stream("g", 1, &in, &out, &error), YK_SCOPE_MISMATCH);
    CHECK(released && !out.release && !in.release);
    source = (struct source){2, false, &released};
    in = (struct ArrowArrayStream){source_schema, source_next, source_error, source_release, &source};
    SAME(yk_arrow_stream("9223372036854775800 + n", 23, &in, &out, &error), YK_OK);
    CHECK(out.get_next(&out, &answers) != 0);
    SAME(yk_arrow_stream_error(&out)->row, 3);
    out.release(&out);
    source = (struct source){2, false, &released};
    in = (struct ArrowArrayStream){source_schema, source_next, source_error, source_release, &source};
    SAME(yk_arrow_stream("n / (n - 6)", 11, &in, &out, &error), YK_OK);
    static const int64_t others[] = {1, 2, 3, 4};
    of_i64[1] = others;
    SAME(out.get_next(&out, &answers), 0);
    answers.release(&answers);
    of_i64[1] = i64s;
    CHECK(out.get_next(&out, &answers) != 0);
    SAME(yk_arrow_stream_error(&out)->row, 4 + 1);
    CHECK(strncmp(out.get_last_error(&out), "row 5,", 6) == 0);
    out.release(&out);
}

int main(void) {
    formats();
    offsets();
    views_under_nulls();
    untaken();
    kinds();
    malformed();
    streams();
    if (!faults)
        puts("arrow: as expected");
    return faults != 0;
}
