/* Calls that only read a handle. Each hands the library a copy of it, on its own stack: what the handle points to is lent, and
 * none of these calls writes to it or frees it. So any number of them may run at once over one handle. */
#include "yurkije.h"

/* A copy of a handle, as the library takes it: it puts back what it finds there. */
struct lent {
    void *at;
    bool live;
};

uint32_t yurkije_field_count(struct lent *expression, size_t *count);
uint32_t yurkije_field_name(struct lent *expression, size_t field, char *room, size_t room_length, size_t *length);
uint32_t yurkije_field_type(struct lent *expression, size_t field, struct yk_type *type);
uint32_t yurkije_fields_read(struct lent *expression, size_t *numbers, size_t room, size_t *count);
uint32_t yurkije_answer_count(struct lent *expression, size_t *count);
uint32_t yurkije_answer_name(struct lent *expression, size_t answer, char *room, size_t room_length, size_t *length);
uint32_t yurkije_answer_type(struct lent *expression, size_t answer, struct yk_type *type);
uint32_t yurkije_answer_text(struct lent *expression, size_t answer, bool optimized, char *room, size_t room_length, size_t *length);
uint32_t yurkije_run(struct lent *expression, const struct yk_column *columns, size_t count, size_t rows, struct yk_answers *answers,
    struct yk_error *error);
uint32_t yurkije_prune(struct lent *expression, size_t answer, const struct yk_statistics *statistics, size_t count, const uint64_t *rows,
    size_t groups, struct yk_verdicts *verdicts, struct yk_error *error);
uint32_t yurkije_answer_size(struct lent *answers, size_t answer, struct yk_size *size);
uint32_t yurkije_answer_copy(struct lent *answers, size_t answer, struct yk_room *room);
uint32_t yurkije_select(struct lent *answers, size_t answer, uint64_t *numbers, size_t room, size_t *count);
uint32_t yurkije_select_u32(struct lent *answers, size_t answer, uint32_t *numbers, size_t room, size_t *count);
uint32_t yurkije_mask(struct lent *answers, size_t answer, uint8_t *mask, size_t room);

static struct lent lend(const struct yk_expression *expression) { return (struct lent){expression->at, expression->live}; }
static struct lent lend_answers(const struct yk_answers *answers) { return (struct lent){answers->at, answers->live}; }

uint32_t yk_field_count(const struct yk_expression *expression, size_t *count) {
    struct lent lent = lend(expression);
    return yurkije_field_count(&lent, count);
}

uint32_t yk_field_name(const struct yk_expression *expression, size_t field, char *room, size_t room_length, size_t *length) {
    struct lent lent = lend(expression);
    return yurkije_field_name(&lent, field, room, room_length, length);
}

uint32_t yk_field_type(const struct yk_expression *expression, size_t field, struct yk_type *type) {
    struct lent lent = lend(expression);
    return yurkije_field_type(&lent, field, type);
}

uint32_t yk_fields_read(const struct yk_expression *expression, size_t *numbers, size_t room, size_t *count) {
    struct lent lent = lend(expression);
    return yurkije_fields_read(&lent, numbers, room, count);
}

uint32_t yk_answer_count(const struct yk_expression *expression, size_t *count) {
    struct lent lent = lend(expression);
    return yurkije_answer_count(&lent, count);
}

uint32_t yk_answer_name(const struct yk_expression *expression, size_t answer, char *room, size_t room_length, size_t *length) {
    struct lent lent = lend(expression);
    return yurkije_answer_name(&lent, answer, room, room_length, length);
}

uint32_t yk_answer_type(const struct yk_expression *expression, size_t answer, struct yk_type *type) {
    struct lent lent = lend(expression);
    return yurkije_answer_type(&lent, answer, type);
}

uint32_t yk_answer_text(
    const struct yk_expression *expression, size_t answer, bool optimized, char *room, size_t room_length, size_t *length) {
    struct lent lent = lend(expression);
    return yurkije_answer_text(&lent, answer, optimized, room, room_length, length);
}

uint32_t yk_run(const struct yk_expression *expression, const struct yk_column *columns, size_t count, size_t rows,
    struct yk_answers *answers, struct yk_error *error) {
    struct lent lent = lend(expression);
    return yurkije_run(&lent, columns, count, rows, answers, error);
}

uint32_t yk_prune(const struct yk_expression *expression, size_t answer, const struct yk_statistics *statistics, size_t count,
    const uint64_t *rows, size_t groups, struct yk_verdicts *verdicts, struct yk_error *error) {
    struct lent lent = lend(expression);
    return yurkije_prune(&lent, answer, statistics, count, rows, groups, verdicts, error);
}

uint32_t yk_answer_size(const struct yk_answers *answers, size_t answer, struct yk_size *size) {
    struct lent lent = lend_answers(answers);
    return yurkije_answer_size(&lent, answer, size);
}

uint32_t yk_answer_copy(const struct yk_answers *answers, size_t answer, struct yk_room *room) {
    struct lent lent = lend_answers(answers);
    return yurkije_answer_copy(&lent, answer, room);
}

uint32_t yk_select(const struct yk_answers *answers, size_t answer, uint64_t *numbers, size_t room, size_t *count) {
    struct lent lent = lend_answers(answers);
    return yurkije_select(&lent, answer, numbers, room, count);
}

uint32_t yk_select_u32(const struct yk_answers *answers, size_t answer, uint32_t *numbers, size_t room, size_t *count) {
    struct lent lent = lend_answers(answers);
    return yurkije_select_u32(&lent, answer, numbers, room, count);
}

uint32_t yk_mask(const struct yk_answers *answers, size_t answer, uint8_t *mask, size_t room) {
    struct lent lent = lend_answers(answers);
    return yurkije_mask(&lent, answer, mask, room);
}
