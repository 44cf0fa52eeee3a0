/* Two threads with a handle each, 1,000,000 calls in all (or as many as the first argument
 * says): the same answers as with one thread. */
#include "check.h"

#include <pthread.h>

enum { rows = 64, batches = 16 };

static int64_t numbers[batches][rows];
static int32_t ends[batches][rows + 1];
static char texts[batches][4 * rows];
static uint8_t valid[batches][rows / 8];
static long calls = 1000000;

/* The answers of one thread, batch by batch: a hash of its sums and the bits that are true. */
struct run {
    pthread_t thread;
    uint64_t hashes[batches];
    long made, other;
};

static void fill(void) {
    uint64_t state = 1;
    for (int batch = 0; batch < batches; batch++)
        for (int row = 0; row < rows; row++) {
            state = state * 6364136223846793005u + 1442695040888963407u;
            numbers[batch][row] = (int64_t)(state >> 40) - (1 << 23);
            valid[batch][row / 8] |= (uint8_t)((state >> 20 & 7) != 0) << row % 8;
            int length = (int)(state >> 30 & 3);
            memset(texts[batch] + ends[batch][row], 'a' + (int)(state >> 50 & 3), (size_t)length);
            ends[batch][row + 1] = ends[batch][row] + length;
        }
}

static struct yk_column column_of(int batch, bool is_text) {
    struct yk_column column = {.kind = is_text ? YK_UTF8 : YK_I64, .rows = rows, .nullable = !is_text};
    if (is_text) {
        column.offsets32 = (struct yk_i32s){ends[batch], rows + 1};
        column.data = (struct yk_bytes){(const uint8_t *)texts[batch], sizeof texts[batch]};
    } else {
        column.i64 = (struct yk_i64s){numbers[batch], rows};
        column.validity = (struct yk_bytes){valid[batch], rows / 8};
    }
    return column;
}

static uint64_t hash_of(struct yk_answers *answers) {
    int64_t sums[rows];
    uint8_t validity[rows / 8];
    uint32_t chosen[rows];
    size_t count = 0;
    struct yk_room room = {.kind = YK_I64, .validity = {validity, sizeof validity}, .i64 = {sums, rows}};
    SAME(yk_answer_copy(answers, 0, &room), YK_OK);
    SAME(yk_select_u32(answers, 1, chosen, rows, &count), YK_OK);
    uint64_t hash = count;
    for (int row = 0; row < rows; row++)
        hash = hash * 1099511628211u + (bit(validity, (size_t)row) ? (uint64_t)sums[row] : 1);
    for (size_t i = 0; i < count; i++)
        hash = hash * 1099511628211u + chosen[i];
    return hash;
}

static void *work(void *to) {
    struct run *run = to;
    struct yk_field fields[] = {field("n", YK_I64, true), field("t", YK_UTF8, false)};
    struct yk_expression expression = read_expression("n + 7 * n as sum, n > 1000 and t like 'a%' or n is null", fields, 2);
    struct yk_answers answers = {0};
    char words[100];
    struct yk_error error = {.message = {words, sizeof words}};
    for (long call = 0; call < calls / 2; call++) {
        int batch = (int)(call % batches);
        struct yk_column columns[] = {column_of(batch, false), column_of(batch, true)};
        if (yk_run(&expression, columns, 2, rows, &answers, &error)) {
            fprintf(stderr, "refused: %s\n", words);
            run->other++;
            break;
        }
        uint64_t hash = hash_of(&answers);
        if (call < batches)
            run->hashes[batch] = hash;
        run->other += run->hashes[batch] != hash;
        run->made++;
    }
    yk_answers_free(&answers);
    yk_expression_free(&expression);
    return NULL;
}

int main(int count, char **words) {
    static struct run runs[2], alone;
    if (count > 1)
        calls = atol(words[1]);
    fill();
    for (int i = 0; i < 2; i++)
        if (pthread_create(&runs[i].thread, NULL, work, &runs[i]))
            return 2;
    for (int i = 0; i < 2; i++)
        pthread_join(runs[i].thread, NULL);
    calls = 2 * batches;
    work(&alone);
    for (int i = 0; i < 2; i++)
        CHECK(runs[i].other == 0 && memcmp(runs[i].hashes, alone.hashes, sizeof alone.hashes) == 0);
    if (!faults)
        printf("threads: %ld calls in two threads, the same answers as in one\n", runs[0].made + runs[1].made);
    return faults != 0;
}
