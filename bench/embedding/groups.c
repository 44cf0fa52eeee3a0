/* Times yk_prune: conditions over groups of three fields of i64, each with both ends and a count of nulls. Its verdicts are compared with what
 * the ends say, for the first condition. By the processor time of the thread; a number is the least of the turns, for a group. */
#include <yurkije.h>

#include <stdio.h>
#include <stdlib.h>
#include <string.h>
#include <time.h>

enum { groups = 20000, turns = 25, fields = 3, rows_each = 8192 };

static const struct {
    const char *text;
    int nodes;
} conditions[] = {
    {"a > 900", 3},
    {"a + b > 100", 5},
    {"a > 900 and b < 50 and c is null", 10},
    {"not (a > 900 and b < 50 and c >= 7)", 12},
    {"a > 900 and b < 50 or c >= 7 and not (a = 3)", 16},
};

static int64_t low[groups], high[groups];
static uint64_t nulls[groups], rows[groups];
static uint8_t verdicts[groups], may_fault[groups];

static void stop(const char *why) {
    fprintf(stderr, "groups: %s\n", why);
    exit(1);
}

static double now(void) {
    struct timespec time;
    clock_gettime(CLOCK_THREAD_CPUTIME_ID, &time);
    return (double)time.tv_sec * 1e9 + (double)time.tv_nsec;
}

static void draw(void) {
    for (size_t i = 0; i < groups; i++) {
        low[i] = rand() % 1000;
        high[i] = low[i] + rand() % 100;
        nulls[i] = (uint64_t)(rand() % 3);
        rows[i] = rows_each;
    }
}

static void check_verdicts(void) {
    for (size_t i = 0; i < groups; i++) {
        uint8_t expected = high[i] <= 900 ? YK_NONE_TRUE : low[i] > 900 && nulls[i] == 0 ? YK_ALL_TRUE : YK_UNKNOWN;
        if (verdicts[i] != expected)
            stop("a verdict is not what the ends say");
    }
}

static double least_time(const struct yk_expression *expression, const struct yk_statistics *statistics) {
    struct yk_verdicts room = {.verdicts = {verdicts, groups}, .may_fault = {may_fault, groups}};
    struct yk_error error = {0};
    double least = 1e18;
    for (int turn = 0; turn < turns; turn++) {
        double start = now();
        if (yk_prune(expression, 0, statistics, fields, rows, groups, &room, &error))
            stop("groups are refused");
        double taken = now() - start;
        least = taken < least ? taken : least;
    }
    return least / groups;
}

int main(void) {
    struct yk_field scope[fields] = {{{"a", 1}, YK_I64, true}, {{"b", 1}, YK_I64, true}, {{"c", 1}, YK_I64, true}};
    struct yk_column lows = {.kind = YK_I64, .nullable = true, .rows = groups, .i64 = {low, groups}};
    struct yk_column highs = {.kind = YK_I64, .nullable = true, .rows = groups, .i64 = {high, groups}};
    struct yk_column counts = {.kind = YK_U64, .rows = groups, .u64 = {nulls, groups}};
    struct yk_statistics each = {lows, highs, counts}, statistics[fields] = {each, each, each};
    draw();
    printf("\n| Condition over %d groups | nodes | ns a group |\n|---|---|---|\n", groups);
    for (size_t i = 0; i < sizeof conditions / sizeof *conditions; i++) {
        const char *text = conditions[i].text;
        struct yk_expression expression = {0};
        struct yk_error error = {0};
        if (yk_expression_new(text, strlen(text), scope, fields, &expression, &error))
            stop("a condition is not read");
        double time = least_time(&expression, statistics);
        if (i == 0)
            check_verdicts();
        printf("| `%s` | %d | %.0f |\n", text, conditions[i].nodes, time);
        yk_expression_free(&expression);
    }
}
