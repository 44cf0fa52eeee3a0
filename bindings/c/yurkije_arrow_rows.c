/* The rows of columns of any length in which an answer, a truth value, is true: by their numbers, or as a mask. */
#include "yurkije_arrow_shared.h"

/* The rows of a batch that are true and not null, a bit each. Bits after the rows are not set. */
struct chosen {
    uint64_t words[YK_ARROW_BATCH / 64];
};

static uint32_t choose(struct yk_answers *answers, size_t answer, size_t rows, struct chosen *chosen) {
    static const size_t most = YK_ARROW_BATCH / 8;
    uint64_t valid[YK_ARROW_BATCH / 64];
    struct yk_room room = {.kind = YK_BOOL, .validity = {(uint8_t *)valid, most}, .bools = {(uint8_t *)chosen->words, most}};
    uint32_t status = yk_answer_copy(answers, answer, &room);
    for (size_t i = 0; !status && i < rows; i += 64) {
        chosen->words[i / 64] &= valid[i / 64];
        if (rows - i < 64)
            chosen->words[i / 64] &= (UINT64_C(1) << (rows - i)) - 1;
    }
    return status;
}

/* The output for the numbers of a batch, and how many there are so far. */
struct selection {
    size_t answer;
    uint64_t *numbers;
    size_t count;
};

/* Adds the numbers of the bits that are set in a word of 64 rows. */
static size_t add_rows(uint64_t word, uint64_t first, uint64_t *numbers) {
    size_t count = 0;
    for (; word; word &= word - 1)
        numbers[count++] = first + (uint64_t)__builtin_ctzll(word);
    return count;
}

static uint32_t append_rows(void *to, struct yk_answers *answers, size_t start, size_t rows) {
    struct selection *selection = to;
    struct chosen chosen = {{0}};
    uint32_t status = choose(answers, selection->answer, rows, &chosen);
    for (size_t i = 0; !status && i < rows; i += 64)
        selection->count += add_rows(chosen.words[i / 64], start + i, selection->numbers + selection->count);
    return status;
}

uint32_t yk_arrow_select(const struct yk_expression *expression, size_t answer, const struct yk_column *columns, size_t count, size_t rows,
    uint64_t *numbers, size_t *selected, struct yk_error *error) {
    struct selection selection = {answer, numbers, 0};
    yk_reset(error);
    uint32_t status = yk_run_batches(expression, columns, count, rows, append_rows, &selection, error);
    *selected = status ? 0 : selection.count;
    return status;
}

struct mask {
    size_t answer;
    uint8_t *at;
};

static uint32_t append_mask(void *to, struct yk_answers *answers, size_t start, size_t rows) {
    const struct mask *mask = to;
    return yk_mask(answers, mask->answer, mask->at + start, rows);
}

uint32_t yk_arrow_mask(const struct yk_expression *expression, size_t answer, const struct yk_column *columns, size_t count, size_t rows,
    uint8_t *mask, struct yk_error *error) {
    struct mask to = {answer, mask};
    yk_reset(error);
    return yk_run_batches(expression, columns, count, rows, append_mask, &to, error);
}
