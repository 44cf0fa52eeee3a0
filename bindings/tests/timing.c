/* What a call costs: `i64 < i64` over rows that are borrowed, with the copy of its answer out.
 * Compared with a copy of both columns, a loop in C over them, and the kernel over columns that
 * are already made: a fifth of the cost of five more comparisons in a call. Medians of some
 * runs, in nanoseconds a call and a row, and the median of each run's ratio of the call to the
 * copy in and the kernel. */
#define _DEFAULT_SOURCE
#include "check.h"

#include <time.h>

enum { most = 65536, runs = 31, more = 5 };

static int64_t a[most], b[most], copy[2 * most];
static uint8_t bits[most / 8], validity[most / 8];
static struct yk_expression one_answer, six_answers;
static struct yk_answers answers;

static double now(void) {
    struct timespec time;
    clock_gettime(CLOCK_THREAD_CPUTIME_ID, &time);
    return (double)time.tv_sec * 1e9 + (double)time.tv_nsec;
}

static int by_size(const void *left, const void *right) {
    double difference = *(const double *)left - *(const double *)right;
    return difference < 0 ? -1 : difference > 0;
}

static double median(double *of) {
    qsort(of, runs, sizeof *of, by_size);
    return of[runs / 2];
}

static void run(struct yk_expression *expression, size_t rows) {
    struct yk_error error = new_error();
    struct yk_column columns[] = {{.kind = YK_I64, .rows = rows, .i64 = {a, rows}}, {.kind = YK_I64, .rows = rows, .i64 = {b, rows}}};
    SAME(yk_run(expression, columns, 2, rows, &answers, &error), YK_OK);
}

static void call(size_t rows) {
    struct yk_room room = {.kind = YK_BOOL, .validity = {validity, rows / 8}, .bools = {bits, rows / 8}};
    run(&one_answer, rows);
    SAME(yk_answer_copy(&answers, 0, &room), YK_OK);
}

static void run_one(size_t rows) { run(&one_answer, rows); }
static void run_six(size_t rows) { run(&six_answers, rows); }

static void copies(size_t rows) {
    memcpy(copy, a, rows * 8);
    memcpy(copy + rows, b, rows * 8);
    __asm__ volatile("" ::: "memory");
}

static void loop(size_t rows) {
    for (size_t i = 0; i < rows; i += 8) {
        unsigned byte = 0;
        for (size_t j = 0; j < 8; j++)
            byte |= (unsigned)(a[i + j] < b[i + j]) << j;
        bits[i / 8] = (uint8_t)byte;
    }
    __asm__ volatile("" ::: "memory");
}

enum form { CALL, ONE, SIX, COPIES, LOOP, KERNEL, RATIO, forms };
static void (*const timed[])(size_t) = {call, run_one, run_six, copies, loop};

/* Times each form in turn, and stores the numbers of one run. */
static void time_once(size_t rows, double times[forms][runs], int at) {
    size_t inner = 1000000 / rows;
    for (int form = 0; form < KERNEL; form++) {
        double start = now();
        for (size_t i = 0; i < inner; i++)
            timed[form](rows);
        times[form][at] = (now() - start) / (double)inner;
    }
    times[KERNEL][at] = (times[SIX][at] - times[ONE][at]) / more;
    times[RATIO][at] = times[CALL][at] / (times[COPIES][at] + times[KERNEL][at]);
}

static void tell(size_t rows, const char *what, double nanoseconds) {
    printf("%6zu rows  %-40s %9.0f ns a call  %6.3f ns a row\n", rows, what, nanoseconds, nanoseconds / (double)rows);
}

static void time_rows(size_t rows) {
    static double times[forms][runs];
    for (int at = 0; at < runs; at++)
        time_once(rows, times, at);
    tell(rows, "yk_run and yk_answer_copy", median(times[CALL]));
    tell(rows, "yk_run alone", median(times[ONE]));
    tell(rows, "a copy of both columns", median(times[COPIES]));
    tell(rows, "the kernel over columns that are made", median(times[KERNEL]));
    tell(rows, "a loop in C", median(times[LOOP]));
    printf("%6zu rows  the call is %.2f of the copy and the kernel\n", rows, median(times[RATIO]));
}

int main(void) {
    struct yk_field fields[] = {field("a", YK_I64, false), field("b", YK_I64, false)};
    one_answer = read_expression("a < b", fields, 2);
    six_answers = read_expression("a < b, a <= b, a > b, a >= b, a = b, a <> b", fields, 2);
    for (size_t i = 0; i < most; i++)
        a[i] = rand() % 100, b[i] = rand() % 100;
    static const size_t sizes[] = {64, 1024, 8192, most};
    for (size_t size = 0; size < COUNT(sizes); size++)
        time_rows(sizes[size]);
    yk_answers_free(&answers);
    yk_expression_free(&one_answer);
    yk_expression_free(&six_answers);
    return faults != 0;
}
