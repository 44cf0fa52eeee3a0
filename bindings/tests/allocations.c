/* Each allocation fails in turn, and then with all after it: a call returns E9 or its usual
 * result, and nothing leaks. malloc and its kin are here, before the C library's, and count;
 * they fail by number. */
#include "check.h"

#include <errno.h>
#include <stdatomic.h>

void *__libc_malloc(size_t);
void *__libc_realloc(void *, size_t);
void __libc_free(void *);

static long asked, refused, first = -1, last = -1, live;

static bool is_refused(void) {
    asked++;
    if (first < 0 || asked < first || asked > last)
        return false;
    refused++;
    errno = ENOMEM;
    return true;
}

void *malloc(size_t size) {
    void *at = is_refused() ? NULL : __libc_malloc(size);
    live += at != NULL;
    return at;
}

void *calloc(size_t count, size_t size) {
    void *at = malloc(count * size);
    return at ? memset(at, 0, count * size) : NULL;
}

void *realloc(void *old, size_t size) {
    void *at = is_refused() ? NULL : __libc_realloc(old, size);
    live += at != NULL && old == NULL;
    return at;
}

void free(void *at) {
    live -= at != NULL;
    __libc_free(at);
}

/* A hash of the results since it was reset. */
static uint64_t told;

static void hash(const void *bytes, size_t length) {
    for (size_t i = 0; i < length; i++)
        told = (told ^ ((const uint8_t *)bytes)[i]) * 1099511628211u;
}

/* The work: reads an expression, runs it, and copies each answer out. Returns the first status
 * that is not 0. */
static const char text[] =
    "n * 2 as twice, t like '%o_t' and n > 1 as found, t, n between 2 and 7 or t ilike 'N%', cast(n > 3 as bool?), n is null";
static const int64_t numbers[] = {1, 2, 3, 4};
static const uint8_t valid[] = {0x0d, 0x0b};
static const int32_t ends[] = {0, 3, 22, 22, 25};
static const char data[] = "nuta bolt that is longbit";

static uint32_t copy_all(struct yk_answers *answers) {
    int64_t values[4];
    uint8_t validity[1], bits[1], bytes[25];
    int32_t offsets[5];
    uint64_t chosen[4];
    size_t count = 0;
    struct yk_room rooms[] = {{.kind = YK_I64, .validity = {validity, 1}, .i64 = {values, 4}},
        {.kind = YK_BOOL, .validity = {validity, 1}, .bools = {bits, 1}},
        {.kind = YK_UTF8, .validity = {validity, 1}, .offsets32 = {offsets, 5}, .data = {bytes, 25}}};
    uint32_t status = YK_OK;
    for (size_t i = 0; !status && i < COUNT(rooms); i++)
        status = yk_answer_copy(answers, i, &rooms[i]);
    if (!status)
        status = yk_select(answers, 1, chosen, 4, &count);
    if (!status) {
        hash(values, 8), hash(values + 2, 16), hash(offsets, sizeof offsets), hash(bytes, sizeof bytes);
        hash(chosen, count * sizeof *chosen);
    }
    return status;
}

/* The names and texts of all answers. */
static uint32_t names(struct yk_expression *expression) {
    char room[200];
    size_t count = 0, length = 0;
    uint32_t status = yk_answer_count(expression, &count);
    for (size_t i = 0; !status && i < count; i++) {
        status = yk_answer_name(expression, i, room, sizeof room, &length);
        hash(room, status ? 0 : length);
        for (int optimized = 0; !status && optimized < 2; optimized++) {
            status = yk_answer_text(expression, i, optimized, room, sizeof room, &length);
            hash(room, status ? 0 : length);
        }
    }
    return status;
}

/* What is known of the second answer in two groups, by the ends of a text and of numbers. */
static uint32_t pruned(struct yk_expression *expression) {
    struct yk_statistics statistics[2];
    uint8_t verdicts[2], may_fault[2];
    uint64_t most[2];
    struct yk_verdicts room = {.verdicts = {verdicts, 2}, .may_fault = {may_fault, 2}, .most = {most, 2}};
    struct yk_error error = new_error();
    memset(statistics, 0, sizeof statistics);
    statistics[0].low = (struct yk_column){.kind = YK_I64, .rows = 2, .i64 = {numbers, 2}};
    statistics[0].high = statistics[0].low;
    statistics[1].low = (struct yk_column){.kind = YK_UTF8, .rows = 2, .offsets32 = {ends, 3}, .data = {(const uint8_t *)data, 25}};
    uint32_t status = yk_prune(expression, 1, statistics, 2, (const uint64_t[]){7, 8}, 2, &room, &error);
    SAME(status, error.status);
    if (!status)
        hash(verdicts, 2), hash(may_fault, 2), hash(most, sizeof most);
    return status;
}

static uint32_t plain_calls(void) {
    struct yk_field fields[] = {field("n", YK_I64, true), field("t", YK_UTF8, false)};
    struct yk_column columns[] = {{.kind = YK_I64, .nullable = true, .rows = 4, .i64 = {numbers, 4}, .validity = {valid, 1}},
        {.kind = YK_UTF8, .rows = 4, .offsets32 = {ends, 5}, .data = {(const uint8_t *)data, 25}}};
    struct yk_expression expression = {0};
    struct yk_answers answers = {0};
    struct yk_error error = new_error();
    uint32_t status = yk_expression_new(text, sizeof text - 1, fields, 2, &expression, &error);
    if (!status)
        status = yk_run(&expression, columns, 2, 4, &answers, &error);
    if (!status)
        status = yk_run(&expression, columns, 2, 4, &answers, &error);
    if (!status)
        status = copy_all(&answers);
    if (!status)
        status = names(&expression);
    if (!status)
        status = pruned(&expression);
    yk_answers_free(&answers);
    yk_expression_free(&expression);
    return status;
}

static struct ArrowSchema n = {.format = "l", .name = "n", .flags = 2}, t = {.format = "u", .name = "t"}, *both[] = {&n, &t};
static struct ArrowSchema schema = {.format = "+s", .n_children = 2, .children = both};
static const void *of_n[] = {valid, numbers}, *of_t[] = {NULL, ends, data}, *none[] = {NULL};
static struct ArrowArray array_n = {.length = 4, .null_count = -1, .n_buffers = 2, .buffers = of_n};
static struct ArrowArray array_t = {.length = 4, .n_buffers = 3, .buffers = of_t}, *arrays[] = {&array_n, &array_t};
static struct ArrowArray batch = {.length = 4, .n_buffers = 1, .buffers = none, .n_children = 2, .children = arrays};

static void release_batch(struct ArrowArray *array) { array->release = NULL; }
static void release_schema(struct ArrowSchema *given) { given->release = NULL; }
static void release_stream(struct ArrowArrayStream *stream) { stream->release = NULL; }

static int give_schema(struct ArrowArrayStream *stream, struct ArrowSchema *out) {
    (void)stream;
    *out = schema;
    out->release = release_schema;
    return 0;
}

static int give_batch(struct ArrowArrayStream *stream, struct ArrowArray *out) {
    (void)stream;
    *out = batch;
    out->release = release_batch;
    return 0;
}

static uint32_t arrow_calls(void) {
    struct ArrowArrayStream in = {give_schema, give_batch, NULL, release_stream, NULL}, out;
    struct ArrowSchema told = {.release = NULL};
    struct ArrowArray answers = {.release = NULL}, shared = {.release = NULL};
    struct yk_error error = new_error();
    uint32_t status = yk_arrow_stream(text, sizeof text - 1, &in, &out, &error);
    if (status)
        return status;
    int code = out.get_schema(&out, &told);
    if (!code)
        code = out.get_next(&out, &answers);
    if (code)
        status = yk_arrow_stream_error(&out)->status;
    else
        status = yk_arrow_share(&answers, &shared);
    if (!status)
        hash(shared.children[2]->buffers[2], 25), hash(&((const int64_t *)shared.children[0]->buffers[1])[2], 16);
    CHECK((code == ENOMEM) == (code != 0));
    if (shared.release)
        shared.release(&shared);
    if (answers.release)
        answers.release(&answers);
    if (told.release)
        told.release(&told);
    out.release(&out);
    return status;
}

/* Columns whose values are converted, and answers that are decimals. */
static uint32_t converted_calls(void) {
    static const int64_t prices[] = {1250, 0, -1, -1, 300, 0, 0, 0}, days[] = {0, 86400000, 1, -86400000};
    static const void *of_prices[] = {NULL, prices}, *of_days[] = {valid + 1, days};
    static struct ArrowSchema price = {.format = "d:12,2", .name = "price"}, day = {.format = "tdm", .name = "day", .flags = 2};
    static struct ArrowSchema *children[] = {&price, &day}, whole = {.format = "+s", .n_children = 2, .children = children};
    static struct ArrowArray array_price = {.length = 4, .n_buffers = 2, .buffers = of_prices};
    static struct ArrowArray array_day = {.length = 4, .null_count = -1, .n_buffers = 2, .buffers = of_days};
    static struct ArrowArray *of_both[] = {&array_price, &array_day};
    static struct ArrowArray given = {.length = 4, .n_buffers = 1, .buffers = none, .n_children = 2, .children = of_both};
    struct yk_expression expression = {0};
    struct ArrowSchema made = {.release = NULL};
    struct ArrowArray out = {.release = NULL};
    struct yk_error error = new_error();
    uint32_t status = yk_arrow_expression_new("price * 2 as twice, day + 1", 27, &whole, &expression, &error);
    if (!status)
        status = yk_arrow_schema(&expression, &made, &error);
    if (!status)
        status = yk_arrow_run(&expression, &whole, &given, &out, &error);
    if (!status) {
        hash(made.children[0]->format, strlen(made.children[0]->format));
        hash(out.children[0]->buffers[1], 4 * 16), hash(out.children[1]->buffers[1], 8);
    }
    if (made.release)
        made.release(&made);
    if (out.release)
        out.release(&out);
    yk_expression_free(&expression);
    return status;
}

/* Columns that are cut into batches: joined, selected, masked, and an error for the last row,
 * after which all rows are run again. */
static uint32_t long_calls(void) {
    enum { rows = 2 * YK_ARROW_BATCH + 3 };
    static int64_t many[rows];
    static uint64_t chosen[rows];
    static uint8_t mask[rows];
    struct yk_field fields[] = {field("n", YK_I64, false)};
    struct yk_column in = {.kind = YK_I64, .rows = rows, .i64 = {many, rows}};
    struct yk_expression expression = {0};
    struct ArrowArray out = {.release = NULL};
    struct yk_error error = new_error();
    size_t count = 0;
    many[rows - 1] = 4;
    uint32_t status = yk_expression_new("n * 2 > 6", 9, fields, 1, &expression, &error);
    if (!status && !(status = yk_arrow_select(&expression, 0, &in, 1, rows, chosen, &count, &error)))
        hash(chosen, count * sizeof *chosen);
    if (!status && !(status = yk_arrow_mask(&expression, 0, &in, 1, rows, mask, &error)))
        hash(mask, rows);
    if (!status && !(status = yk_arrow_answer(&expression, &in, 1, rows, &out, &error)))
        hash(out.children[0]->buffers[1], rows / 8);
    if (out.release)
        out.release(&out);
    many[rows - 1] = INT64_MAX;
    if (!status && (status = yk_arrow_mask(&expression, 0, &in, 1, rows, mask, &error)) == YK_ARITHMETIC) {
        hash(&error.row, sizeof error.row);
        status = YK_OK;
    }
    yk_expression_free(&expression);
    return status;
}

/* Fails each allocation of the work, alone or with all after it. */
static void sweep(const char *name, uint32_t (*ask)(void), bool alone) {
    long count = 0, same = 0;
    told = 1;
    SAME(ask(), YK_OK);
    uint64_t whole = told;
    for (long refuse = 1;; refuse++) {
        long before = live;
        told = 1;
        asked = refused = 0;
        first = refuse;
        last = alone ? refuse : __LONG_MAX__;
        uint32_t status = ask();
        long met = refused;
        first = -1;
        SAME(live, before);
        if (status == YK_OK)
            CHECK(told == whole);
        else
            SAME(status, YK_OUT_OF_MEMORY);
        if (!met)
            break;
        same += status == YK_OK;
        count++;
    }
    printf("%s: %ld allocations refused%s: %ld times E9, %ld times the answers as with memory; nothing leaks\n", name, count,
        alone ? "" : " with all behind them", count - same, same);
}

int main(void) {
    setvbuf(stdout, NULL, _IONBF, 0);
    sweep("plain calls", plain_calls, true);
    sweep("plain calls", plain_calls, false);
    sweep("calls of the shim", arrow_calls, true);
    sweep("calls of the shim", arrow_calls, false);
    sweep("values that are converted", converted_calls, true);
    sweep("values that are converted", converted_calls, false);
    sweep("calls over many batches", long_calls, true);
    sweep("calls over many batches", long_calls, false);
    return faults != 0;
}
