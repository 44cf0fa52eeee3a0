/* A scan filter: the expression is read once, and run over borrowed batches. Compiles as C11 and
 * as C++17:
 *     cc example.c $(pkg-config --cflags --libs yurkije) -Wl,-rpath,$(pkg-config --variable=libdir yurkije) -o example && ./example
 * prints
 *     worth of row 0: 21
 *     worth of row 1: null
 *     worth of row 2: 60
 *     chosen: row 0
 *     chosen: row 2
 */
#include <yurkije.h>

#include <inttypes.h>
#include <stdio.h>
#include <string.h>

static struct yk_field field(const char *name, uint32_t kind, bool nullable) {
    struct yk_field made;
    made.name.at = name;
    made.name.length = strlen(name);
    made.kind = kind;
    made.nullable = nullable;
    return made;
}

/* Prints the answer `worth`: the caller allocates, and the library copies. */
static uint32_t print_worth(struct yk_answers *answers) {
    int64_t values[3];
    uint8_t validity[1];
    struct yk_room room;
    memset(&room, 0, sizeof room);
    room.kind = YK_I64;
    room.validity.at = validity;
    room.validity.length = sizeof validity;
    room.i64.at = values;
    room.i64.length = 3;
    uint32_t status = yk_answer_copy(answers, 0, &room);
    for (int row = 0; !status && row < 3; row++) {
        if (validity[0] >> row & 1)
            printf("worth of row %d: %" PRId64 "\n", row, values[row]);
        else
            printf("worth of row %d: null\n", row);
    }
    return status;
}

static uint32_t print_chosen(struct yk_answers *answers) {
    uint64_t rows[3];
    size_t count = 0;
    uint32_t status = yk_select(answers, 1, rows, 3, &count);
    for (size_t i = 0; !status && i < count; i++)
        printf("chosen: row %" PRIu64 "\n", rows[i]);
    return status;
}

int main(void) {
    static const char text[] = "price * stock as worth, price > 2 and stock > 5 and name like '%t' as chosen";
    int64_t prices[] = {3, 12, 10}, stocks[] = {7, 0, 6};
    int32_t ends[] = {0, 3, 7, 10};
    const char names[] = "nut"
                         "bolt"
                         "bit";
    uint8_t stocks_valid[] = {0x5}; /* rows 0 and 2 are not null */

    /* Handles are zeroed; the caller owns the message buffer. */
    char message[200];
    struct yk_error error;
    struct yk_expression expression;
    struct yk_answers answers;
    memset(&error, 0, sizeof error);
    memset(&expression, 0, sizeof expression);
    memset(&answers, 0, sizeof answers);
    error.message.at = message;
    error.message.length = sizeof message;

    struct yk_field fields[3];
    fields[0] = field("price", YK_I64, false);
    fields[1] = field("stock", YK_I64, true);
    fields[2] = field("name", YK_UTF8, false);
    uint32_t status = yk_expression_new(text, sizeof text - 1, fields, 3, &expression, &error);

    /* Slices that a kind does not read stay zeroed. */
    struct yk_column columns[3];
    memset(columns, 0, sizeof columns);
    for (int i = 0; i < 3; i++) {
        columns[i].kind = fields[i].kind;
        columns[i].nullable = fields[i].nullable;
        columns[i].rows = 3;
    }
    columns[0].i64.at = prices;
    columns[0].i64.length = 3;
    columns[1].i64.at = stocks;
    columns[1].i64.length = 3;
    columns[1].validity.at = stocks_valid;
    columns[1].validity.length = sizeof stocks_valid;
    columns[2].offsets32.at = ends;
    columns[2].offsets32.length = 4;
    columns[2].data.at = (const uint8_t *)names;
    columns[2].data.length = sizeof names - 1;
    if (!status)
        status = yk_run(&expression, columns, 3, 3, &answers, &error);
    if (status)
        fprintf(stderr, "refused, %" PRIu32 ": %s\n", status, message);
    if (!status)
        status = print_worth(&answers);
    if (!status)
        status = print_chosen(&answers);

    /* Everything filled is freed, also after an error. */
    yk_answers_free(&answers);
    yk_expression_free(&expression);
    return status != YK_OK;
}
