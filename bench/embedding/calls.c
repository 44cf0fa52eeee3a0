/* Times yk_run over columns of i64, f64 and dates that are lent beside loops of plain C over the same buffers, which write a byte or a float a
 * row; then a list of 1,000 constants beside a comparison with one, and a run whose last row faults beside one without a fault. Answers are
 * compared first. Both sides take turns in one process, by the processor time of the thread; a number is the median of the turns, a ratio the
 * median of the turns' ratios. */
#include <yurkije.h>

#include <stdio.h>
#include <stdlib.h>
#include <string.h>
#include <time.h>

enum { most = 1000000, turns = 9, fields = 4, faulty_rows = 200000, items = 1000 };

static int64_t values[fields][most];
static double floats[fields][most], sums[most], copied[most];
static int32_t days[fields][most];
static uint8_t mask[most], bits[most / 8], validity[most / 8];
static struct yk_answers answers;

static void stop(const char *why) {
    fprintf(stderr, "calls: %s\n", why);
    exit(1);
}

static double now(void) {
    struct timespec time;
    clock_gettime(CLOCK_THREAD_CPUTIME_ID, &time);
    return (double)time.tv_sec * 1e9 + (double)time.tv_nsec;
}

static int by_size(const void *left, const void *right) {
    double difference = *(const double *)left - *(const double *)right;
    return difference < 0 ? -1 : difference > 0;
}

static double median(double *of) {
    qsort(of, turns, sizeof *of, by_size);
    return of[turns / 2];
}

__attribute__((noinline)) static void less(size_t rows) {
    const int64_t *a = values[0], *b = values[1];
    for (size_t i = 0; i < rows; i++)
        mask[i] = a[i] < b[i];
}

__attribute__((noinline)) static void over_five(size_t rows) {
    const int64_t *a = values[0];
    for (size_t i = 0; i < rows; i++)
        mask[i] = 5 < a[i];
}

__attribute__((noinline)) static void tree(size_t rows) {
    const int64_t *a = values[0], *b = values[1], *c = values[2], *d = values[3];
    for (size_t i = 0; i < rows; i++)
        mask[i] = (a[i] < b[i]) & (c[i] * 2 + d[i] > 5);
}

__attribute__((noinline)) static void less_floats(size_t rows) {
    const double *a = floats[0], *b = floats[1];
    for (size_t i = 0; i < rows; i++)
        mask[i] = a[i] < b[i];
}

__attribute__((noinline)) static void between_floats(size_t rows) {
    const double *a = floats[0], *b = floats[1], *c = floats[2];
    for (size_t i = 0; i < rows; i++)
        mask[i] = (b[i] <= a[i]) & (a[i] <= c[i]);
}

__attribute__((noinline)) static void within_floats(size_t rows) {
    const double *a = floats[0];
    for (size_t i = 0; i < rows; i++)
        mask[i] = (-100.5 <= a[i]) & (a[i] <= 250.25);
}

__attribute__((noinline)) static void sum_floats(size_t rows) {
    const double *a = floats[0], *b = floats[1];
    for (size_t i = 0; i < rows; i++)
        sums[i] = a[i] * 3 + b[i];
}

__attribute__((noinline)) static void less_days(size_t rows) {
    const int32_t *a = days[0], *b = days[1];
    for (size_t i = 0; i < rows; i++)
        mask[i] = a[i] < b[i];
}

__attribute__((noinline)) static void within_days(size_t rows) {
    const int32_t *a = days[0];
    for (size_t i = 0; i < rows; i++)
        mask[i] = (10957 <= a[i]) & (a[i] <= 18628);
}

struct timed {
    const char *text;
    uint32_t kind; /* of the fields */
    size_t columns;
    void (*plain)(size_t);
    bool sums; /* whether it has a float a row, else a truth value */
    struct yk_expression expression;
};

static struct timed all[] = {
    {"a < b", YK_I64, 2, less, false, {0, 0}},
    {"5 < a", YK_I64, 1, over_five, false, {0, 0}},
    {"a < b and c * 2 + d > 5", YK_I64, 4, tree, false, {0, 0}},
    {"a < b", YK_F64, 2, less_floats, false, {0, 0}},
    {"a between b and c", YK_F64, 3, between_floats, false, {0, 0}},
    {"a between -100.5 and 250.25", YK_F64, 1, within_floats, false, {0, 0}},
    {"a * 3 + b", YK_F64, 2, sum_floats, true, {0, 0}},
    {"a < b", YK_DATE, 2, less_days, false, {0, 0}},
    {"a between '2000-01-01' and '2021-01-01'", YK_DATE, 1, within_days, false, {0, 0}},
};

static const char *word_of(uint32_t kind) { return kind == YK_F64 ? "f64" : kind == YK_DATE ? "date" : "i64"; }

static void read_text(struct timed *it) {
    static char *const names[] = {"a", "b", "c", "d"};
    struct yk_field scope[fields];
    struct yk_error error;
    memset(&error, 0, sizeof error);
    memset(scope, 0, sizeof scope);
    for (size_t k = 0; k < fields; k++)
        scope[k] = (struct yk_field){{names[k], 1}, it->kind, false};
    if (yk_expression_new(it->text, strlen(it->text), scope, it->columns, &it->expression, &error))
        stop("an expression is refused");
}

static struct yk_column lent(uint32_t kind, size_t k, size_t rows) {
    struct yk_column column;
    memset(&column, 0, sizeof column);
    column.kind = kind;
    column.rows = rows;
    if (kind == YK_F64)
        column.f64 = (struct yk_f64s){floats[k], rows};
    else if (kind == YK_DATE)
        column.i32 = (struct yk_i32s){days[k], rows};
    else
        column.i64 = (struct yk_i64s){values[k], rows};
    return column;
}

static uint32_t run(struct timed *it, size_t rows) {
    struct yk_error error;
    struct yk_column columns[fields];
    memset(&error, 0, sizeof error);
    for (size_t k = 0; k < it->columns; k++)
        columns[k] = lent(it->kind, k, rows);
    return yk_run(&it->expression, columns, it->columns, rows, &answers, &error);
}

static void compare(struct timed *it, size_t rows) {
    struct yk_room room = {.kind = YK_BOOL, .validity = {validity, sizeof validity}, .bools = {bits, sizeof bits}};
    if (it->sums)
        room = (struct yk_room){.kind = YK_F64, .validity = {validity, sizeof validity}, .f64 = {copied, most}};
    if (run(it, rows) || yk_answer_copy(&answers, 0, &room))
        stop("a run is refused");
    it->plain(rows);
    for (size_t i = 0; i < rows; i++)
        if (it->sums ? sums[i] != copied[i] : mask[i] != ((bits[i / 8] >> i % 8) & 1))
            stop("the library and plain C answer differently");
}

static void time_rows(struct timed *it, size_t rows) {
    double ours[turns], plain[turns], ratio[turns];
    size_t inner = rows < 200 ? 2000 : 2000000 / rows;
    compare(it, rows);
    for (int at = 0; at < turns; at++) {
        double start = now();
        for (size_t i = 0; i < inner; i++)
            run(it, rows);
        double between = now();
        for (size_t i = 0; i < inner; i++)
            it->plain(rows);
        ours[at] = (between - start) / (double)inner;
        plain[at] = (now() - between) / (double)inner;
        ratio[at] = ours[at] / plain[at];
    }
    double most_ours = median(ours);
    printf("| %s | `%s` | %zu | %.0f | %.2f | %.0f | %.2f |\n", word_of(it->kind), it->text, rows, most_ours, most_ours / (double)rows, median(plain),
           median(ratio));
}

/* A list of so many constants, of which no row has most. */
static char *list_text(void) {
    static char text[items * 8 + 100];
    char *end = text + sprintf(text, "a in (0");
    for (int k = 1; k < items; k++)
        end += sprintf(end, ", %d", 7 * k - 3000);
    strcpy(end, ")");
    return text;
}

static void time_list(size_t rows) {
    struct timed list = {list_text(), YK_I64, 1, NULL, false, {0, 0}}, one = {"a = 5", YK_I64, 1, NULL, false, {0, 0}};
    double with[turns], without[turns], more[turns];
    size_t inner = 4000000 / rows;
    read_text(&list);
    read_text(&one);
    for (int at = 0; at < turns; at++) {
        double start = now();
        for (size_t i = 0; i < inner; i++)
            if (run(&list, rows))
                stop("a run is refused");
        double between = now();
        for (size_t i = 0; i < inner; i++)
            run(&one, rows);
        with[at] = (between - start) / (double)(inner * rows);
        without[at] = (now() - between) / (double)(inner * rows);
        more[at] = with[at] - without[at];
    }
    printf("| %zu | %.2f | %.2f | %.2f |\n", rows, median(without), median(with), median(more));
    yk_expression_free(&list.expression);
    yk_expression_free(&one.expression);
}

static void time_fault(const char *text) {
    struct timed it = {text, YK_I64, 2, NULL, false, {0, 0}};
    int64_t *a = &values[0][faulty_rows - 1], *b = &values[1][faulty_rows - 1];
    const int64_t kept[] = {*a, *b};
    double with[turns], without[turns], ratio[turns];
    read_text(&it);
    for (int at = 0; at < turns; at++) {
        double start = now();
        if (run(&it, faulty_rows) != YK_OK)
            stop("a run is refused");
        double between = now();
        *a = INT64_MAX, *b = 2;
        if (run(&it, faulty_rows) != YK_ARITHMETIC)
            stop("a fault is not told");
        with[at] = now() - between;
        *a = kept[0], *b = kept[1];
        without[at] = between - start;
        ratio[at] = with[at] / without[at];
    }
    printf("| `%s` | %.0f | %.0f | %.2f |\n", it.text, median(without), median(with), median(ratio));
    yk_expression_free(&it.expression);
}

int main(void) {
    static const size_t rows[] = {1, 1024, 8192, 65536, 1000000};
    uint64_t state = 88172645463325252u;
    for (size_t k = 0; k < fields; k++)
        for (size_t i = 0; i < most; i++) {
            state ^= state << 13, state ^= state >> 7, state ^= state << 17;
            values[k][i] = (int64_t)(state % 1000) - 500;
            floats[k][i] = (double)(int64_t)(state >> 20) / 4398046511104.0 * 250 - 500;
            days[k][i] = (int32_t)(state >> 40 & 16383) + 4000;
        }
    puts("| Kind | Expression | Rows | yk_run ns | ns a row | plain C ns | ratio |\n|---|---|---|---|---|---|---|");
    for (size_t k = 0; k < sizeof all / sizeof *all; k++) {
        read_text(&all[k]);
        for (size_t i = 0; i < sizeof rows / sizeof *rows; i++)
            time_rows(&all[k], rows[i]);
        yk_expression_free(&all[k].expression);
    }
    printf("\n| Rows | `a = 5`, ns a row | `a in (..)` of %d | more |\n|---|---|---|---|\n", items);
    for (size_t i = 2; i < sizeof rows / sizeof *rows; i++)
        time_list(rows[i]);
    printf("\n| %d rows | no fault, ns | a fault in the last row | ratio |\n|---|---|---|---|\n", faulty_rows);
    time_fault("a + b");
    time_fault("a * b");
    time_fault("a + b < 5");
    yk_answers_free(&answers);
    return 0;
}
