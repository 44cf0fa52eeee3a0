/* Expressions over values of SQLite, as a loadable extension:
 *     yurkije(columns, expression, value, ..)
 * returns the first answer of an expression over declared columns, `a i64?, s utf8?`, with a value for each: SQLite's columns have no
 * fixed types. A truth value is 0 or 1. The expression is read once for each call site of a query, if both texts stay the same there.
 * A handle belongs to one thread: so does a connection that calls this.
 *
 * Types are the library's, or words that people declare columns of SQLite with, in any case (INTEGER, REAL, TEXT, BLOB, BOOLEAN, DATE,
 * DATETIME, TIMESTAMP, DECIMAL(p,s), NUMERIC(p,s)), each with a question mark behind its word if a row may be null. Values are taken as
 * SQLite stores them:
 *     f64, f32          its floats, and whole numbers that are floats; of f32 those that 32 bits hold
 *     date              texts YYYY-MM-DD
 *     timestamp         texts YYYY-MM-DD HH:MM:SS, or with a T, and up to six digits of a second
 *     decimal(p,s)      texts, whole numbers, and floats next to which no other decimal of so many places is nearer
 *     any               any value, of which an expression can ask only whether it is null
 * Any other is an error. Answers that are dates, timestamps and decimals are such texts. SQLite has no NaN: an answer that is one is null.
 */
#include "yurkije_sqlite.h"

#include <stdlib.h>
#include <string.h>

SQLITE_EXTENSION_INIT1

enum { most_columns = 32 };

/* The type of columns of which only the validity is read: a number that no kind has. */
enum { ANY = 255 };

/* The state of one place of a query. */
struct place {
    struct yk_expression expression;
    struct yk_answers answers;
    struct yk_type answer;
    char *columns_text, *text; /* the texts that it was read from */
    struct yk_field fields[most_columns];
    bool are_any[most_columns];
    size_t count;
};

static void free_place(void *at) {
    struct place *place = at;
    yk_answers_free(&place->answers);
    yk_expression_free(&place->expression);
    sqlite3_free(place->columns_text);
    sqlite3_free(place->text);
    sqlite3_free(place);
}

static const char *past_blanks(const char *at) { return at + strspn(at, " \t\r\n"); }

/* The kind of a type's word, 0 for none. */
static uint32_t kind_named(const char *name, size_t length) {
    static const struct {
        const char *name;
        uint32_t kind;
    } kinds[] = {{"bool", YK_BOOL}, {"i8", YK_I8}, {"i16", YK_I16}, {"i32", YK_I32}, {"i64", YK_I64}, {"u8", YK_U8}, {"u16", YK_U16},
        {"u32", YK_U32}, {"u64", YK_U64}, {"utf8", YK_UTF8}, {"binary", YK_BINARY}, {"f64", YK_F64}, {"f32", YK_F32}, {"date", YK_DATE},
        {"timestamp", YK_TIMESTAMP}, {"decimal", YK_DECIMAL64}, {"any", ANY}, {"integer", YK_I64}, {"real", YK_F64}, {"text", YK_UTF8},
        {"blob", YK_BINARY}, {"boolean", YK_BOOL}, {"datetime", YK_TIMESTAMP}, {"numeric", YK_DECIMAL64}};
    for (size_t i = 0; i < sizeof kinds / sizeof *kinds; i++)
        if (strlen(kinds[i].name) == length && sqlite3_strnicmp(kinds[i].name, name, (int)length) == 0)
            return kinds[i].kind;
    return YK_NO_KIND;
}

/* Reads the digits of a decimal's type, as `(12,2)`. NULL if they are malformed. */
static const char *read_digits(const char *at, uint32_t *kind) {
    char *end;
    if (*at != '(')
        return NULL;
    unsigned long precision = strtoul(at + 1, &end, 10), scale = 0;
    if (*end == ',')
        scale = strtoul(end + 1, &end, 10);
    if (*end != ')' || precision > 18 || scale > precision)
        return NULL;
    *kind = YK_DECIMAL((uint32_t)precision, (uint32_t)scale);
    return end + 1;
}

/* Reads the declared columns: a word and a type each, with commas between. False if they are
 * malformed. */
static int read_columns(struct place *place) {
    const char *at = past_blanks(place->columns_text);
    while (at && *at && place->count < most_columns) {
        struct yk_field *field = &place->fields[place->count];
        field->name.at = at;
        field->name.length = strcspn(at, " \t\r\n,?");
        at = past_blanks(at + field->name.length);
        size_t length = strcspn(at, " \t\r\n,?(");
        field->kind = kind_named(at, length);
        at += length;
        field->nullable = *at == '?';
        at += field->nullable;
        if (field->kind == YK_DECIMAL64 && !(at = read_digits(at, &field->kind)))
            return 0;
        at = past_blanks(at);
        if (field->name.length == 0 || field->kind == YK_NO_KIND || (*at && *at != ','))
            return 0;
        place->are_any[place->count++] = field->kind == ANY;
        at = past_blanks(at + (*at == ','));
    }
    return *at == 0;
}

/* Reads the text with columns of any type as byte strings, but for one as truth values. */
static uint32_t read_as(struct place *place, size_t odd, struct yk_error *error) {
    for (size_t i = 0; i < place->count; i++)
        if (place->are_any[i])
            place->fields[i].kind = i == odd ? YK_BOOL : YK_BINARY;
    uint32_t status = yk_expression_new(place->text, strlen(place->text), place->fields, place->count, &place->expression, error);
    return status ? status : yk_answer_type(&place->expression, 0, &place->answer);
}

/* Adds to the words of an error what can be asked of a column of any type, if there is one. */
static void add_advice(const struct place *place, struct yk_error *error) {
    size_t length = strlen(error->message.at);
    for (size_t i = 0; i < place->count; i++)
        if (place->are_any[i]) {
            snprintf(error->message.at + length, error->message.length - length,
                "%s%.*s is of any type: it can be asked only whether it is null", length ? "; " : "", (int)place->fields[i].name.length,
                place->fields[i].name.at);
            return;
        }
}

/* Reads the text. If it has the same type whatever those of columns of any type are, it only asks whether they are null. */
static uint32_t read_text(struct place *place, struct yk_error *error) {
    uint32_t status = read_as(place, YK_NONE, error), kind = place->answer.kind;
    for (size_t i = 0; i < place->count && !status; i++)
        if (place->are_any[i])
            status = (status = read_as(place, i, error)) || place->answer.kind == kind ? status : YK_TYPE_MISMATCH;
    if (!status)
        return read_as(place, YK_NONE, error);
    add_advice(place, error);
    return status;
}

/* Reads the expression of a place; NULL after an error, which is reported. */
static struct place *read_place(sqlite3_context *context, const char *columns, const char *text) {
    char message[300];
    struct yk_error error = {.message = {message, sizeof message}};
    struct place *place = sqlite3_malloc(sizeof *place);
    if (!place) {
        sqlite3_result_error_nomem(context);
        return NULL;
    }
    memset(place, 0, sizeof *place);
    place->columns_text = sqlite3_mprintf("%s", columns);
    place->text = sqlite3_mprintf("%s", text);
    if (!place->columns_text || !place->text)
        sqlite3_result_error_nomem(context);
    else if (!read_columns(place))
        sqlite3_result_error(context, "yurkije: expected columns as: a i64?, s utf8, price decimal?(12,2)", -1);
    else if (read_text(place, &error))
        sqlite3_result_error(context, message, -1);
    else
        return place;
    free_place(place);
    return NULL;
}

/* Passes the answer to SQLite, which frees a text itself. */
static void answer(sqlite3_context *context, struct place *place) {
    _Alignas(8) uint8_t values[8] = {0};
    uint8_t validity[1];
    int32_t ends[2];
    struct yk_size size = {0};
    uint32_t kind = place->answer.kind;
    if (yk_answer_size(&place->answers, 0, &size)) {
        sqlite3_result_error(context, "yurkije: the answer has no size", -1);
        return;
    }
    char *bytes = sqlite3_malloc64(size.data + 1);
    if (!bytes) {
        sqlite3_result_error_nomem(context);
        return;
    }
    struct yk_room room = room_of(kind, validity, values, ends, (struct yk_bytes_room){(uint8_t *)bytes, size.data});
    if (yk_answer_copy(&place->answers, 0, &room))
        sqlite3_result_error(context, "yurkije: the answer is not copied", -1);
    else if (!(validity[0] & 1))
        sqlite3_result_null(context);
    else if (kind == YK_UTF8)
        sqlite3_result_text(context, bytes, ends[1], SQLITE_TRANSIENT);
    else if (kind == YK_BINARY)
        sqlite3_result_blob(context, bytes, ends[1], SQLITE_TRANSIENT);
    else
        answer_number(context, kind, values);
    sqlite3_free(bytes);
}

/* The place that was read before from the same texts, or one that is read now. */
static struct place *place_of(sqlite3_context *context, const char *columns, const char *text) {
    struct place *place = sqlite3_get_auxdata(context, 1);
    if (place && strcmp(place->columns_text, columns) == 0 && strcmp(place->text, text) == 0)
        return place;
    place = read_place(context, columns, text);
    if (place) {
        sqlite3_set_auxdata(context, 1, place, free_place);
        place = sqlite3_get_auxdata(context, 1);
        if (!place)
            sqlite3_result_error(context, "yurkije: expected an expression that is a constant", -1);
    }
    return place;
}

static void yurkije(sqlite3_context *context, int count, sqlite3_value **values) {
    struct yk_column columns[most_columns];
    struct cell cells[most_columns];
    char message[300];
    struct yk_error error = {.message = {message, sizeof message}};
    const char *declared = count < 2 ? NULL : (const char *)sqlite3_value_text(values[0]),
               *text = count < 2 ? NULL : (const char *)sqlite3_value_text(values[1]);
    struct place *place = declared && text ? place_of(context, declared, text) : NULL;
    if (!declared || !text)
        sqlite3_result_error(context, "yurkije: expected columns, an expression, and a value for each column", -1);
    if (!place)
        return;
    if ((size_t)count - 2 != place->count) {
        sqlite3_result_error(context, "yurkije: expected a value for each column that is declared", -1);
        return;
    }
    for (size_t i = 0; i < place->count; i++)
        if (!borrow(values[i + 2], &place->fields[i], place->are_any[i], &columns[i], &cells[i])) {
            char *words =
                sqlite3_mprintf("yurkije: a value is none of column %.*s", (int)place->fields[i].name.length, place->fields[i].name.at);
            sqlite3_result_error(context, words ? words : "out of memory", -1);
            sqlite3_free(words);
            return;
        }
    if (yk_run(&place->expression, columns, place->count, 1, &place->answers, &error))
        sqlite3_result_error(context, message, -1);
    else
        answer(context, place);
}

int sqlite3_yurkijesqlite_init(sqlite3 *database, char **refusal, const sqlite3_api_routines *routines) {
    SQLITE_EXTENSION_INIT2(routines)
    (void)refusal;
    return sqlite3_create_function(database, "yurkije", -1, SQLITE_UTF8 | SQLITE_DETERMINISTIC, NULL, yurkije, NULL, NULL);
}
