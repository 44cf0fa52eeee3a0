/* Columns of any length, run a batch at a time. */
#include "yurkije_arrow_shared.h"

#include <stdlib.h>
#include <string.h>

/* The batch of a column that begins at that row. */
static struct yk_column slice(const struct yk_column *column, size_t start, size_t rows) {
    struct yk_column part = *column;
    part.offset += start;
    part.rows = rows;
    return part;
}

/* The columns from that row on, with that many rows. */
static const struct yk_column *cut(const struct yk_column *columns, struct yk_column *parts, size_t count, size_t start, size_t rows) {
    for (size_t i = 0; i < count; i++)
        parts[i] = slice(&columns[i], start, rows);
    return parts;
}

/* Whether the tree of an answer that is run differs from the one that was read, or may: memory
 * to know ran out. */
static bool is_rewritten(const struct yk_expression *expression) {
    size_t count = 0, length = 0, other = 0;
    bool same = yk_answer_count(expression, &count) == YK_OK;
    for (size_t i = 0; same && i < count; i++) {
        yk_answer_text(expression, i, false, NULL, 0, &length);
        yk_answer_text(expression, i, true, NULL, 0, &other);
        char *read = malloc(length + 1), *run = malloc(other + 1);
        same = read && run && length == other && !yk_answer_text(expression, i, false, read, length, &length) &&
               !yk_answer_text(expression, i, true, run, other, &other) && memcmp(read, run, length) == 0;
        free(read);
        free(run);
    }
    return !same;
}

/* Runs a batch of columns whose rows begin there. Errors are those of a run of all rows: a
 * column that is wrong before a row that faults, the first of either. So a row is reported if no
 * rule can have dropped a fault before it and the rest of the columns is read; else all rows are
 * run, row by row. */
static uint32_t run_batch(const struct yk_expression *expression, const struct yk_column *columns, struct yk_column *parts, size_t count,
    size_t rows, size_t start, size_t part, struct yk_answers *answers, struct yk_error *error) {
    struct yk_error ignored = {0};
    uint32_t status = yk_run(expression, cut(columns, parts, count, start, part), count, part, answers, error);
    if (!status || status == YK_OUT_OF_MEMORY)
        return status;
    if (status == YK_ARITHMETIC && !is_rewritten(expression)) {
        size_t behind = start + part;
        uint32_t rest = yk_run(expression, cut(columns, parts, count, behind, rows - behind), count, rows - behind, answers, &ignored);
        yk_add_to_row(error, start);
        if (!rest || rest == YK_ARITHMETIC)
            return status;
    }
    uint32_t whole = yk_run(expression, columns, count, rows, answers, error);
    return whole ? whole : yk_refuse(error, status, YK_NONE, "a batch of the rows is refused");
}

/* The columns that an answer reads, and others of that many rows and nothing else: those are not looked at. All, if there are
 * fewer columns than fields, which a run reports. */
static uint32_t keep_read(
    const struct yk_expression *expression, const struct yk_column *columns, size_t count, size_t rows, struct yk_column *kept) {
    size_t *numbers = malloc(count * sizeof *numbers + 1), read = 0;
    uint32_t status = numbers ? yk_fields_read(expression, numbers, count, &read) : YK_OUT_OF_MEMORY;
    for (size_t i = 0; i < count; i++)
        kept[i] = status ? columns[i] : (struct yk_column){.kind = YK_BOOL, .rows = rows};
    for (size_t i = 0; i < read && !status; i++)
        if (numbers[i] < count)
            kept[numbers[i]] = columns[numbers[i]];
    free(numbers);
    return status == YK_OUT_OF_MEMORY ? status : YK_OK;
}

/* Whether each column has the rows of the batch, so that it can be cut. */
static bool can_cut(const struct yk_column *columns, size_t count, size_t rows) {
    for (size_t i = 0; i < count; i++)
        if (columns[i].rows != rows)
            return false;
    return true;
}

/* Heap space for a batch's copies, below a block that stays: memory freed after each batch is
 * then never at the heap's end, where the C library would return it to the system, only to fetch
 * it again for the next. NULL, after a failed allocation, is no error. */
static void *make_hole(size_t columns) {
    void *blocks[12];
    size_t made = 0, wanted = columns + 2 < 12 ? columns + 2 : 12;
    while (made < wanted && (blocks[made] = malloc(YK_ARROW_BATCH * sizeof(int64_t) + 64)))
        made++;
    void *stays = malloc(64);
    while (made > 0)
        free(blocks[--made]);
    return stays;
}

uint32_t yk_run_batches(const struct yk_expression *expression, const struct yk_column *columns, size_t count, size_t rows, yk_each_batch *each,
    void *to, struct yk_error *error) {
    struct yk_answers answers = {0};
    struct yk_column *parts = malloc(2 * count * sizeof *parts + 1), *kept = parts ? parts + count : NULL;
    uint32_t status = parts && !keep_read(expression, columns, count, rows, kept) ? YK_OK : yk_refuse_memory(error);
    bool is_cut = !status && rows > YK_ARROW_BATCH && can_cut(kept, count, rows);
    void *hole = is_cut ? make_hole(count) : NULL;
    size_t start = 0;
    for (bool more = !status; more; more = !status && start < rows) {
        size_t part = is_cut && rows - start > YK_ARROW_BATCH ? YK_ARROW_BATCH : rows - start;
        status = is_cut ? run_batch(expression, kept, parts, count, rows, start, part, &answers, error)
                        : yk_run(expression, kept, count, rows, &answers, error);
        if (!status && (status = each(to, &answers, start, part)))
            yk_refuse(error, status, YK_NONE, "%s", status == YK_OUT_OF_MEMORY ? "out of memory" : "an answer is not copied");
        start += part;
    }
    yk_answers_free(&answers);
    free(hole);
    free(parts);
    return status;
}
