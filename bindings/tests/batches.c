/* Columns that are longer than a batch: they are cut, their answers joined, and what refuses them told as of all rows. */
#include "check.h"

/* Rows of many batches, told by their number in all. */
static void long_columns(void) {
    enum { rows = 3 * YK_ARROW_BATCH + 5 };
    static int64_t numbers[rows];
    static uint64_t chosen[rows];
    for (int64_t i = 0; i < rows; i++)
        numbers[i] = i;
    struct yk_field fields[] = {field("a", YK_I64, false)};
    struct yk_expression expression = read_expression("a * 2 as twice, a > 20000 as big", fields, 1);
    struct yk_column in = {.kind = YK_I64, .rows = rows, .i64 = {numbers, rows}};
    struct ArrowArray out, shared;
    struct yk_error error = new_error();
    size_t count = 0;
    SAME(yk_arrow_answer(&expression, &in, 1, rows, &out, &error), YK_OK);
    SAME(yk_arrow_share(&out, &shared), YK_OK);
    out.release(&out);
    for (int64_t i = 0; i < rows; i++)
        if (((const int64_t *)shared.children[0]->buffers[1])[i] != 2 * i || bit(shared.children[1]->buffers[1], i) != (i > 20000))
            SAME(i, -1);
    shared.release(&shared);
    SAME(yk_arrow_select(&expression, 1, &in, 1, rows, chosen, &count, &error), YK_OK);
    SAME(count, rows - 20001);
    CHECK(chosen[0] == 20001 && chosen[count - 1] == rows - 1);
    SAME(yk_arrow_select(&expression, 0, &in, 1, rows, chosen, &count, &error), YK_OTHER_KIND);
    numbers[2 * YK_ARROW_BATCH + 3] = INT64_MAX;
    SAME(yk_arrow_answer(&expression, &in, 1, rows, &out, &error), YK_ARITHMETIC);
    SAME(error.row, 2 * YK_ARROW_BATCH + 3);
    CHECK(strstr(message, "row 16387, answer 0 (twice)") == message);
    in.i64.length = rows - 1;
    numbers[2 * YK_ARROW_BATCH + 3] = 0;
    SAME(yk_arrow_answer(&expression, &in, 1, rows, &out, &error), YK_VALUES_TOO_SHORT);
    in.offset = SIZE_MAX;
    SAME(yk_arrow_answer(&expression, &in, 1, rows, &out, &error), YK_VALUES_TOO_SHORT);
    SAME(yk_arrow_answer(&expression, &in, 1, 7, &out, &error), YK_LENGTH_MISMATCH);
    CHECK(!out.release);
    yk_expression_free(&expression);
}

/* Whether the calls that cut columns refuse them as one call over all rows does: the row that it tells. */
static void refused_alike(struct yk_expression *expression, const struct yk_column *columns, size_t count, size_t rows, size_t row) {
    static uint64_t chosen[3 * YK_ARROW_BATCH];
    static uint8_t mask[3 * YK_ARROW_BATCH];
    struct yk_answers answers = {0};
    struct ArrowArray out;
    char words[300];
    size_t selected = 7;
    struct yk_error whole = {.message = {words, sizeof words}}, error = new_error();
    SAME(yk_run(expression, columns, count, rows, &answers, &whole), whole.status);
    SAME(whole.row, row);
    SAME(yk_arrow_answer(expression, columns, count, rows, &out, &error), whole.status);
    CHECK(!out.release && error.column == whole.column && error.answer == whole.answer && error.row == row && strcmp(message, words) == 0);
    SAME(yk_arrow_select(expression, 0, columns, count, rows, chosen, &selected, &error), whole.status);
    CHECK(error.column == whole.column && error.row == row && strcmp(message, words) == 0);
    SAME(selected, 0);
    SAME(yk_arrow_mask(expression, 0, columns, count, rows, mask, &error), whole.status);
    CHECK(error.column == whole.column && error.row == row && strcmp(message, words) == 0);
}

/* What refuses an earlier batch is not told where a run of all rows would tell something else. */
static void refused_in_many_batches(void) {
    enum { rows = 3 * YK_ARROW_BATCH };
    static int64_t a[rows], b[rows];
    static uint8_t valid[rows / 8];
    struct yk_field fields[] = {field("a", YK_I64, false), field("b", YK_I64, true)};
    struct yk_column in[] = {{.kind = YK_I64, .rows = rows, .i64 = {a, rows}},
        {.kind = YK_I64, .rows = rows, .nullable = true, .i64 = {b, rows}, .validity = {valid, sizeof valid}}};
    memset(valid, 0xff, sizeof valid);
    /* the tree that is run has lost a * 2, and no row faults for that */
    struct yk_expression expression = read_expression("a * 2 > 5 and false or b * 2 > 5", fields, 2);
    a[YK_ARROW_BATCH - 1] = b[2 * YK_ARROW_BATCH + 3] = INT64_MAX;
    refused_alike(&expression, in, 2, rows, 2 * YK_ARROW_BATCH + 3);
    a[YK_ARROW_BATCH - 1] = 0;
    refused_alike(&expression, in, 2, rows, 2 * YK_ARROW_BATCH + 3);
    /* a column that is wrong is told before a row that faults */
    b[5] = INT64_MAX;
    in[1].i64.length = rows - 1;
    refused_alike(&expression, in, 2, rows, YK_NONE);
    yk_expression_free(&expression);
    /* nothing of this is dropped: the first batch that faults has the first row */
    expression = read_expression("a * 2 > b, b * 2 > a", fields, 2);
    refused_alike(&expression, in, 2, rows, YK_NONE);
    in[1].i64.length = rows;
    refused_alike(&expression, in, 2, rows, 5);
    b[5] = 0;
    a[2 * YK_ARROW_BATCH + 3] = INT64_MAX;
    refused_alike(&expression, in, 2, rows, 2 * YK_ARROW_BATCH + 3);
    a[rows - 1] = INT64_MAX;
    b[2 * YK_ARROW_BATCH + 3] = 0;
    refused_alike(&expression, in, 2, rows, 2 * YK_ARROW_BATCH + 3);
    yk_expression_free(&expression);
}

/* Texts of many batches lie one behind the other; a truth value under a null is not selected. */
static void long_texts(void) {
    enum { rows = 2 * YK_ARROW_BATCH + 7 };
    static int32_t text_ends[rows + 1];
    static char texts[4 * rows];
    static uint8_t truths[rows / 8 + 1], not_null[rows / 8 + 1];
    static uint64_t chosen[rows];
    for (int32_t i = 0; i < rows; i++) {
        text_ends[i + 1] = text_ends[i] + i % 4;
        memset(texts + text_ends[i], 'a' + i % 26, (size_t)(i % 4));
    }
    memset(truths, 0xff, sizeof truths);
    memset(not_null, 0x7f, sizeof not_null);
    struct yk_field fields[] = {field("t", YK_UTF8, false), field("b", YK_BOOL, true)};
    struct yk_expression expression = read_expression("t, b", fields, 2);
    struct yk_column in[] = {
        {.kind = YK_UTF8, .rows = rows, .offsets32 = {text_ends, rows + 1}, .data = {(const uint8_t *)texts, sizeof texts}},
        {.kind = YK_BOOL, .rows = rows, .nullable = true, .bools = {truths, sizeof truths}, .validity = {not_null, sizeof not_null}}};
    struct ArrowArray out;
    struct yk_error error = new_error();
    size_t count = 0, wrong = 0;
    SAME(yk_arrow_answer(&expression, in, 2, rows, &out, &error), YK_OK);
    CHECK(memcmp(out.children[0]->buffers[1], text_ends, sizeof text_ends) == 0);
    CHECK(memcmp(out.children[0]->buffers[2], texts, (size_t)text_ends[rows]) == 0);
    SAME(out.children[1]->null_count, rows / 8);
    out.release(&out);
    SAME(yk_arrow_select(&expression, 1, in, 2, rows, chosen, &count, &error), YK_OK);
    SAME(count, rows - rows / 8);
    for (size_t i = 0; i < count; i++)
        wrong += chosen[i] != i + i / 7;
    static uint8_t mask[rows + 1];
    mask[rows] = 7;
    SAME(yk_arrow_mask(&expression, 1, in, 2, rows, mask, &error), YK_OK);
    for (size_t i = 0; i < rows; i++)
        wrong += mask[i] != (i % 8 != 7);
    SAME(wrong, 0);
    SAME(mask[rows], 7);
    SAME(yk_arrow_mask(&expression, 0, in, 2, rows, mask, &error), YK_OTHER_KIND);
    yk_expression_free(&expression);
}

int main(void) {
    long_columns();
    refused_in_many_batches();
    long_texts();
    if (!faults)
        puts("batches: as expected");
    return faults != 0;
}
