/* Eight threads over one expression, and over one handle of answers: 80,000 runs in all (or as many
 * as the first argument says), each with the answers that one thread has. */
#include "check.h"

#include <pthread.h>

enum { rows = 64, threads = 8 };

static int64_t numbers[rows], others[rows];
static struct yk_expression expression;
static struct yk_answers together;
static uint64_t expected;
static long calls = 80000;

struct run {
    pthread_t thread;
    long made, other;
};

static uint64_t hash_of(const struct yk_answers *answers) {
    int64_t sums[rows];
    uint8_t validity[rows / 8], mask[rows];
    size_t count = 0;
    uint64_t chosen[rows], hash = 0;
    struct yk_room room = {.kind = YK_I64, .validity = {validity, sizeof validity}, .i64 = {sums, rows}};
    if (yk_answer_copy(answers, 0, &room) || yk_select(answers, 1, chosen, rows, &count) || yk_mask(answers, 1, mask, rows))
        return 0;
    for (int row = 0; row < rows; row++)
        hash = hash * 1099511628211u + (uint64_t)sums[row] + mask[row];
    for (size_t i = 0; i < count; i++)
        hash = hash * 1099511628211u + chosen[i];
    return hash;
}

/* The columns of the fields, of which the second is not read. */
static void fill_columns(struct yk_column *columns) {
    columns[0] = (struct yk_column){.kind = YK_I64, .rows = rows, .i64 = {numbers, rows}};
    columns[1] = (struct yk_column){0};
    columns[2] = (struct yk_column){.kind = YK_I64, .rows = rows, .i64 = {others, rows}};
}

static bool asks_well(void) {
    size_t read[3], count = 0, length = 0;
    char name[8], text[64];
    return !yk_fields_read(&expression, read, 3, &count) && count == 2 && read[1] == 2 && !yk_answer_count(&expression, &count) &&
           count == 2 && !yk_answer_name(&expression, 0, name, sizeof name, &length) && length == 3 &&
           !yk_answer_text(&expression, 1, true, text, sizeof text, &length);
}

static void *work(void *to) {
    struct run *run = to;
    struct yk_answers answers = {0};
    char words[100];
    struct yk_error error = {.message = {words, sizeof words}};
    struct yk_column columns[3];
    fill_columns(columns);
    for (long call = 0; call < calls / threads; call++) {
        if (yk_run(&expression, columns, 3, rows, &answers, &error)) {
            run->other++;
            break;
        }
        run->other += hash_of(&answers) != expected || hash_of(&together) != expected || !asks_well();
        run->made++;
    }
    yk_answers_free(&answers);
    return NULL;
}

int main(int count, char **words) {
    static struct run runs[threads];
    struct yk_field fields[] = {field("n", YK_I64, false), field("t", YK_UTF8, true), field("m", YK_I64, false)};
    struct yk_column columns[3];
    struct yk_error error = new_error();
    long made = 0;
    if (count > 1)
        calls = atol(words[1]);
    for (int row = 0; row < rows; row++)
        numbers[row] = row * 37 % 64, others[row] = row * 11 % 64;
    expression = read_expression("n + 7 * m as sum, not (n < m or m between 10 and 20)", fields, 3);
    fill_columns(columns);
    SAME(yk_run(&expression, columns, 3, rows, &together, &error), YK_OK);
    expected = hash_of(&together);
    CHECK(expected != 0);
    for (int i = 0; i < threads; i++)
        if (pthread_create(&runs[i].thread, NULL, work, &runs[i]))
            return 2;
    for (int i = 0; i < threads; i++) {
        pthread_join(runs[i].thread, NULL);
        SAME(runs[i].other, 0);
        made += runs[i].made;
    }
    yk_answers_free(&together);
    yk_expression_free(&expression);
    if (!faults)
        printf("shared: %ld runs in %d threads over one handle, the same answers as in one\n", made, threads);
    return faults != 0;
}
