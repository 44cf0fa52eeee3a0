/* Handles that go from thread to thread: each of six threads takes a place by its lock, runs the
 * expression there, sometimes reads it anew or frees what it finds, and leaves the place to the next:
 * 12,000 turns in all (or as many as the first argument says), with the answers that one thread has. */
#include "check.h"

#include <pthread.h>

enum { rows = 64, threads = 6, places = 4 };

struct place {
    pthread_mutex_t lock;
    struct yk_expression expression;
    struct yk_answers answers;
};

static struct place held[places];
static int64_t numbers[rows], others[rows];
static uint64_t expected;
static long turns = 12000;

struct run {
    pthread_t thread;
    uint64_t state;
    long made, other;
};

static uint64_t hash_of(const struct yk_answers *answers) {
    int64_t sums[rows];
    uint8_t validity[rows / 8], mask[rows];
    uint64_t hash = 1;
    struct yk_room room = {.kind = YK_I64, .validity = {validity, sizeof validity}, .i64 = {sums, rows}};
    if (yk_answer_copy(answers, 0, &room) || yk_mask(answers, 1, mask, rows))
        return 0;
    for (int row = 0; row < rows; row++)
        hash = hash * 1099511628211u + (uint64_t)sums[row] + mask[row];
    return hash;
}

static uint32_t read_into(struct yk_expression *expression) {
    struct yk_field fields[] = {field("n", YK_I64, false), field("m", YK_I64, false)};
    const char *text = "n + 7 * m as sum, n in (3, 5, 8) or n < m and m between 10 and 20";
    struct yk_error error = {0};
    return yk_expression_new(text, strlen(text), fields, 2, expression, &error);
}

/* Runs what is held there. A thread reads the expression again, or frees the handles, in some turns,
 * whichever thread filled them. */
static bool turn(struct place *place, uint64_t chance) {
    struct yk_error error = {0};
    struct yk_column columns[] = {{.kind = YK_I64, .rows = rows, .i64 = {numbers, rows}}, {.kind = YK_I64, .rows = rows, .i64 = {others, rows}}};
    if (chance % 8 == 0)
        yk_answers_free(&place->answers);
    if (chance % 16 == 1)
        yk_expression_free(&place->expression);
    if ((chance % 16 <= 1 || chance % 32 == 2) && read_into(&place->expression))
        return false;
    return !yk_run(&place->expression, columns, 2, rows, &place->answers, &error) && hash_of(&place->answers) == expected;
}

static void *work(void *to) {
    struct run *run = to;
    for (long i = 0; i < turns / threads; i++) {
        run->state = run->state * 6364136223846793005u + 1442695040888963407u;
        struct place *place = &held[run->state >> 40 & (places - 1)];
        pthread_mutex_lock(&place->lock);
        run->other += !turn(place, run->state >> 50);
        pthread_mutex_unlock(&place->lock);
        run->made++;
    }
    return NULL;
}

int main(int count, char **words) {
    static struct run runs[threads];
    long made = 0;
    if (count > 1)
        turns = atol(words[1]);
    for (int row = 0; row < rows; row++)
        numbers[row] = row * 37 % 64, others[row] = row * 11 % 64;
    for (int i = 0; i < places; i++) {
        pthread_mutex_init(&held[i].lock, NULL);
        SAME(read_into(&held[i].expression), YK_OK);
    }
    turn(&held[0], 3);
    expected = hash_of(&held[0].answers);
    CHECK(expected != 0);
    for (int i = 0; i < threads; i++) {
        runs[i].state = (uint64_t)i;
        if (pthread_create(&runs[i].thread, NULL, work, &runs[i]))
            return 2;
    }
    for (int i = 0; i < threads; i++) {
        pthread_join(runs[i].thread, NULL);
        SAME(runs[i].other, 0);
        made += runs[i].made;
    }
    for (int i = 0; i < places; i++) {
        yk_answers_free(&held[i].answers);
        yk_expression_free(&held[i].expression);
    }
    if (!faults)
        printf("handed: %ld turns of %d threads over handles that others filled, the same answers as in one\n", made, threads);
    return faults != 0;
}
