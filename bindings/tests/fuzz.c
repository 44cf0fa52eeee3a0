/* A fuzzer (libFuzzer): texts and columns from its bytes. Each slice that the library reads or
 * writes ends before a page without access, so that a byte past its end is a fault, also in code
 * that no sanitizer knows. Answers are computed again over the same rows at another offset and
 * in another layout, and compared. */
#define _DEFAULT_SOURCE
#include "fuzz_arrow.h"
#include "fuzz_texts.h"

#include <stdio.h>
#include <stdlib.h>
#include <string.h>
#include <sys/mman.h>

enum { most_columns = 4, most_rows = 70, slots = 80, slot_size = 4096 };

/* Memory that ends at a page of no access: a slot for each slice of a run. */
static uint8_t *slot_end[slots];
static int taken;

static void make_slots(void) {
    uint8_t *at = mmap(NULL, (size_t)slots * 2 * slot_size, PROT_READ | PROT_WRITE, MAP_PRIVATE | MAP_ANONYMOUS, -1, 0);
    if (at == MAP_FAILED)
        abort();
    for (int i = 0; i < slots; i++) {
        mprotect(at + (size_t)(2 * i + 1) * slot_size, slot_size, PROT_NONE);
        slot_end[i] = at + (size_t)(2 * i + 1) * slot_size;
    }
}

static void *guarded(size_t bytes) {
    if (taken == slots || bytes > slot_size)
        abort();
    return slot_end[taken++] - bytes;
}

static void *guarded_copy(const void *from, size_t bytes) { return bytes ? memcpy(guarded(bytes), from, bytes) : NULL; }

/* A column of a kind, over items from the input; now and then with a wrong length, offset or view. */
struct fuzzed {
    struct yk_column column;
    int32_t offsets[most_rows + 20];
    uint8_t views[most_rows + 20][16];
    uint8_t data[300];
    struct yk_bytes buffers[2];
};

static void fill(struct given *given, uint8_t *to, size_t bytes) {
    uint64_t state = 1 + next(given);
    unsigned kind = below(given, 4);
    for (size_t i = 0; i < bytes; i++) {
        state = state * 6364136223846793005u + 1442695040888963407u;
        to[i] = kind == 0   ? 0
                : kind == 1 ? (uint8_t)(state >> 56)
                : kind == 2 ? (uint8_t)('a' + (state >> 60))
                            : (uint8_t)(i % 8 == 0 ? state >> 62 : 0);
    }
}

static void set_integers(struct yk_column *column, struct given *given, size_t items) {
    uint8_t bytes[8 * (most_rows + 20)];
    fill(given, bytes, sizeof bytes);
    switch (column->kind) {
    case YK_BOOL:
        items = items / 8 + (items % 8 != 0);
        column->bools = (struct yk_bytes){guarded_copy(bytes, items), items};
        break;
    case YK_I8: column->i8 = (struct yk_i8s){guarded_copy(bytes, items), items}; break;
    case YK_I16: column->i16 = (struct yk_i16s){guarded_copy(bytes, 2 * items), items}; break;
    case YK_I32: column->i32 = (struct yk_i32s){guarded_copy(bytes, 4 * items), items}; break;
    case YK_I64: column->i64 = (struct yk_i64s){guarded_copy(bytes, 8 * items), items}; break;
    case YK_U8: column->u8 = (struct yk_bytes){guarded_copy(bytes, items), items}; break;
    case YK_U16: column->u16 = (struct yk_u16s){guarded_copy(bytes, 2 * items), items}; break;
    case YK_U32: column->u32 = (struct yk_u32s){guarded_copy(bytes, 4 * items), items}; break;
    default: column->u64 = (struct yk_u64s){guarded_copy(bytes, 8 * items), items}; break;
    }
}

static void set_offsets(struct fuzzed *made, struct given *given, size_t items) {
    struct yk_column *column = &made->column;
    bool wild = next(given) % 16 == 0;
    size_t length = below(given, 200);
    int32_t at = 0;
    fill(given, made->data, length);
    for (size_t i = 0; i <= items; i++) {
        made->offsets[i] = wild ? (int32_t)(next(given) << 24 | next(given)) : at;
        if (at < (int32_t)length)
            at += (int32_t)below(given, 4);
        if (at > (int32_t)length)
            at = (int32_t)length;
    }
    column->data = (struct yk_bytes){guarded_copy(made->data, length), length};
    size_t count = next(given) % 32 == 0 ? items / 2 : items + 1;
    if (column->kind == YK_UTF8 || column->kind == YK_BINARY) {
        column->offsets32 = (struct yk_i32s){guarded_copy(made->offsets, 4 * count), count};
    } else {
        int64_t *wide = count ? guarded(8 * count) : NULL;
        for (size_t i = 0; i < count; i++)
            wide[i] = made->offsets[i];
        column->offsets64 = (struct yk_i64s){wide, count};
    }
}

static void set_views(struct fuzzed *made, struct given *given, size_t items) {
    struct yk_column *column = &made->column;
    fill(given, made->data, 200);
    for (size_t i = 0; i < items; i++) {
        uint32_t parts[4] = {below(given, 40), 0, below(given, 2), below(given, 120)};
        if (next(given) % 64 == 0)
            parts[next(given) % 4] = (uint32_t)next(given) << 24 | next(given);
        memset(made->views[i], 0, 16);
        memcpy(made->views[i], parts, 4);
        if (parts[0] <= 12) {
            fill(given, made->views[i] + 4, parts[0]);
        } else {
            memcpy(made->views[i] + 4, made->data + (parts[3] < 190 ? parts[3] : 0), 4);
            memcpy(made->views[i] + 8, parts + 2, 8);
        }
    }
    for (int i = 0; i < 2; i++)
        made->buffers[i] = (struct yk_bytes){guarded_copy(made->data, 200), 200};
    column->views = (struct yk_views){items ? (const uint8_t(*)[16])guarded_copy(made->views, 16 * items) : NULL, items};
    column->buffers = (struct yk_buffers){guarded_copy(made->buffers, sizeof made->buffers), 2};
}

static void make_column(struct fuzzed *made, const struct yk_field *field, struct given *given, size_t rows) {
    struct yk_column *column = &made->column;
    uint8_t bits[(most_rows + 20) / 8 + 1];
    *column = (struct yk_column){.kind = field->kind, .nullable = field->nullable, .rows = rows, .offset = below(given, 17)};
    if (next(given) % 64 == 0)
        column->kind = next(given);
    size_t items = column->offset + rows;
    if (field->nullable && next(given) % 4) {
        size_t bytes = items / 8 + (items % 8 != 0) - (items > 0 && next(given) % 64 == 0);
        fill(given, bits, sizeof bits);
        column->validity = (struct yk_bytes){guarded_copy(bits, bytes), bytes};
    }
    if (next(given) % 64 == 0)
        column->offset = SIZE_MAX - below(given, 100);
    if (column->kind >= YK_BOOL && column->kind <= YK_U64)
        set_integers(column, given, items - (items > 0 && next(given) % 64 == 0));
    else if (column->kind == YK_UTF8_VIEW || column->kind == YK_BINARY_VIEW)
        set_views(made, given, items);
    else
        set_offsets(made, given, items);
}

/* Output buffers that end at pages of no access, of exactly the required size. */
static uint32_t copy_answer(struct yk_answers *answers, size_t answer, uint32_t kind, struct yk_room *room) {
    struct yk_size size = {0};
    uint32_t status = yk_answer_size(answers, answer, &size);
    if (status)
        return status;
    *room = (struct yk_room){.kind = kind, .validity = {guarded(size.validity), size.validity}};
    switch (kind) {
    case YK_BOOL: room->bools = (struct yk_bytes_room){guarded(size.values), size.values}; break;
    case YK_I8: room->i8 = (struct yk_i8s_room){guarded(size.values), size.values}; break;
    case YK_I16: room->i16 = (struct yk_i16s_room){guarded(2 * size.values), size.values}; break;
    case YK_I32: room->i32 = (struct yk_i32s_room){guarded(4 * size.values), size.values}; break;
    case YK_I64: room->i64 = (struct yk_i64s_room){guarded(8 * size.values), size.values}; break;
    case YK_U8: room->u8 = (struct yk_bytes_room){guarded(size.values), size.values}; break;
    case YK_U16: room->u16 = (struct yk_u16s_room){guarded(2 * size.values), size.values}; break;
    case YK_U32: room->u32 = (struct yk_u32s_room){guarded(4 * size.values), size.values}; break;
    case YK_U64: room->u64 = (struct yk_u64s_room){guarded(8 * size.values), size.values}; break;
    default:
        if (size.data > slot_size)
            return YK_ROOM_TOO_SMALL;
        room->offsets32 = (struct yk_i32s_room){guarded(4 * size.offsets), size.offsets};
        room->data = (struct yk_bytes_room){guarded(size.data), size.data};
    }
    return yk_answer_copy(answers, answer, room);
}

/* Whether row i of one copy is row j of another. */
static bool same_row(const struct yk_room *a, size_t i, const struct yk_room *b, size_t j) {
    bool valid = a->validity.at[i / 8] >> i % 8 & 1;
    if (valid != (b->validity.at[j / 8] >> j % 8 & 1) || !valid)
        return valid == (b->validity.at[j / 8] >> j % 8 & 1);
    switch (a->kind) {
    case YK_BOOL: return (a->bools.at[i / 8] >> i % 8 & 1) == (b->bools.at[j / 8] >> j % 8 & 1);
    case YK_I8: return a->i8.at[i] == b->i8.at[j];
    case YK_I16: return a->i16.at[i] == b->i16.at[j];
    case YK_I32: return a->i32.at[i] == b->i32.at[j];
    case YK_I64: return a->i64.at[i] == b->i64.at[j];
    case YK_U8: return a->u8.at[i] == b->u8.at[j];
    case YK_U16: return a->u16.at[i] == b->u16.at[j];
    case YK_U32: return a->u32.at[i] == b->u32.at[j];
    case YK_U64: return a->u64.at[i] == b->u64.at[j];
    default: break;
    }
    int32_t length = a->offsets32.at[i + 1] - a->offsets32.at[i];
    return length == b->offsets32.at[j + 1] - b->offsets32.at[j] &&
           (length == 0 || memcmp(a->data.at + a->offsets32.at[i], b->data.at + b->offsets32.at[j], (size_t)length) == 0);
}

/* Runs the rows from `cut` on as a separate batch, and compares each answer with the whole's. */
static void again(struct yk_expression *expression, struct fuzzed *made, size_t count, size_t rows, size_t cut, struct yk_answers *whole,
    struct yk_error *error) {
    struct yk_column columns[most_columns];
    struct yk_answers part = {0};
    size_t answers = 0;
    for (size_t i = 0; i < count; i++) {
        columns[i] = made[i].column;
        columns[i].offset += cut;
        columns[i].rows -= cut;
    }
    if (yk_run(expression, columns, count, rows - cut, &part, error))
        abort();
    yk_answer_count(expression, &answers);
    int before = taken;
    for (size_t k = 0; k < answers && k < 3; k++) {
        struct yk_room a, b;
        struct yk_type type = {0};
        taken = before;
        yk_answer_type(expression, k, &type);
        if (copy_answer(whole, k, type.kind, &a) || copy_answer(&part, k, type.kind, &b))
            break;
        for (size_t i = cut; i < rows; i++)
            if (!same_row(&a, i, &b, i - cut))
                abort();
    }
    yk_answers_free(&part);
}

/* How many texts were expressions, how many batches had answers, how often groups were pruned, and how many arrays were
 * converted or refused. */
static unsigned long asked, readable, answered, pruned, converted;

__attribute__((destructor)) static void tell(void) {
    fprintf(stderr,
        "fuzz: %lu texts, %lu of them expressions, %lu batches answered and compared, groups pruned %lu times, %lu arrays converted\n",
        asked, readable, answered, pruned, converted);
}

/* The meaning of one input: an expression over fields. */
struct asking {
    struct yk_field fields[most_columns];
    size_t count;
    struct yk_expression expression;
    char message[40];
    struct yk_error error;
};

/* An expression over fields of the input: a correct text, tokens, or bytes. */
static uint32_t read_text(struct given *given, struct asking *asking) {
    static const char *const names[] = {"c0", "c1", "c2", "c3"};
    char text[400];
    asking->count = 1 + below(given, most_columns);
    for (size_t i = 0; i < asking->count; i++)
        asking->fields[i] = (struct yk_field){{names[i], 2}, next(given) % 64 == 0 ? next(given) : 1 + below(given, 15), next(given) & 1};
    struct writing writing = {text, 0, sizeof text, asking->fields, asking->count};
    unsigned form = next(given) % 8;
    (form == 0 ? write_bytes : form < 3 ? write_tokens : write_answers)(given, &writing);
    return yk_expression_new(
        guarded_copy(text, writing.length), writing.length, asking->fields, asking->count, &asking->expression, &asking->error);
}

/* Runs the expression over columns of the input, and compares its answers. */
static void run(struct given *given, struct asking *asking) {
    static struct fuzzed made[most_columns];
    struct yk_column columns[most_columns];
    struct yk_answers answers = {0};
    size_t rows = below(given, most_rows);
    taken = 0;
    for (size_t i = 0; i < asking->count; i++) {
        make_column(&made[i], &asking->fields[i], given, rows);
        columns[i] = made[i].column;
    }
    uint32_t status = yk_run(&asking->expression, columns, asking->count, rows, &answers, &asking->error);
    if ((status != YK_OK) != (asking->error.status != YK_OK))
        abort();
    answered += status == YK_OK;
    if (!status && rows > 0)
        again(&asking->expression, made, asking->count, rows, 1 + below(given, (unsigned)rows), &answers, &asking->error);
    yk_answers_free(&answers);
}

/* Prunes groups by statistics of the input: as many buffers as are asked for are written, and none where the call is refused. */
static void prune(struct given *given, struct asking *asking) {
    static struct fuzzed made[3 * most_columns];
    static const struct yk_field counts = {{"n", 1}, YK_U64, true};
    struct yk_statistics statistics[most_columns];
    size_t groups = below(given, 5);
    taken = 0;
    memset(statistics, 0, sizeof statistics);
    for (size_t i = 0; i < asking->count; i++) {
        struct yk_column *parts[] = {&statistics[i].low, &statistics[i].high, &statistics[i].nulls};
        struct yk_field ends = asking->fields[i];
        ends.nullable = true;
        for (size_t k = 0; k < 3; k++)
            if (next(given) % 3) {
                make_column(&made[3 * i + k], k < 2 ? &ends : &counts, given, groups);
                *parts[k] = made[3 * i + k].column;
            }
    }
    uint64_t *rows = guarded(8 * groups);
    size_t bytes = next(given) % 8 ? groups : 0;
    struct yk_verdicts room = {
        {guarded(groups), groups}, {guarded(bytes), bytes}, {guarded(8 * groups), groups}, {guarded(8 * groups), groups}};
    for (size_t g = 0; g < groups; g++) {
        rows[g] = below(given, 60);
        room.verdicts.at[g] = 9;
    }
    uint32_t status = yk_prune(&asking->expression, 0, statistics, asking->count, rows, groups, &room, &asking->error);
    if (status != asking->error.status)
        abort();
    pruned += status == YK_OK;
    for (size_t g = 0; g < groups; g++)
        if (status ? room.verdicts.at[g] != 9 : room.verdicts.at[g] > 2 || room.least.at[g] > room.most.at[g] || room.most.at[g] > rows[g])
            abort();
}

int LLVMFuzzerTestOneInput(const uint8_t *bytes, size_t size) {
    struct given given = {bytes, size};
    struct asking asking = {.count = 0};
    asking.error.message = (struct yk_text_room){asking.message, sizeof asking.message};
    if (!slot_end[0])
        make_slots();
    taken = 0;
    if (next(&given) % 4 == 0) {
        convert_values(&given, guarded);
        converted++;
        return 0;
    }
    uint32_t status = read_text(&given, &asking);
    asked++;
    readable += status == YK_OK;
    if (!status)
        run(&given, &asking);
    if (!status)
        prune(&given, &asking);
    if (asking.error.message_length >= sizeof asking.message)
        abort();
    yk_expression_free(&asking.expression);
    return 0;
}
