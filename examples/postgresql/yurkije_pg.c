/* Expressions over rows of PostgreSQL:
 *     yurkije(text, record) -> text         the first answer, written as PostgreSQL writes it
 *     yurkije_is(text, record) -> boolean   the first answer, a truth value
 * The fields are the row's columns, by name, and may be null: boolean, smallint, integer, bigint, real, double precision, numeric(p,s)
 * of at most 18 digits, date, timestamp without time zone, text and varchar, bytea. A column of another type can be asked only whether it
 * is null. An infinite date or timestamp, a NaN of numeric, and a timestamp whose microseconds from 1970 on 64 bits do not hold end the
 * query.
 * An expression is read once for each call site of a query. Its handles live in the memory context of that call site, which frees them
 * even if an error ends the query: PostgreSQL leaves C by longjmp, and never through the library. */
#include "yurkije_pg.h"

#include "access/htup_details.h"
#include "fmgr.h"
#include "mb/pg_wchar.h"
#include "utils/builtins.h"
#include "utils/float.h"
#include "utils/typcache.h"

PG_MODULE_MAGIC;
PG_FUNCTION_INFO_V1(yurkije_pg_text);
PG_FUNCTION_INFO_V1(yurkije_pg_is);

/* The state of one place of a query. */
struct place {
    MemoryContextCallback callback;
    MemoryContext context;
    struct yk_expression expression;
    struct yk_answers answers;
    text *words; /* for the expression */
    Oid type;    /* for the row */
    int32 typmod;
    TupleDesc row;
    size_t count;
    int *attributes; /* for each field */
    bool *are_known; /* whether the type of each is taken */
    struct yk_column *columns;
    int64 *numbers; /* space for the value of each, or its offsets */
    struct yk_type answer;
};

static const uint8_t null_bit[1] = {0}, valid_bit[1] = {1};

static void free_handles(void *at) {
    struct place *place = at;
    yk_answers_free(&place->answers);
    yk_expression_free(&place->expression);
}

static struct place *place_of(FunctionCallInfo call) {
    struct place *place = call->flinfo->fn_extra;
    if (place)
        return place;
    place = MemoryContextAllocZero(call->flinfo->fn_mcxt, sizeof *place);
    place->context = call->flinfo->fn_mcxt;
    place->callback.func = free_handles;
    place->callback.arg = place;
    MemoryContextRegisterResetCallback(place->context, &place->callback);
    return call->flinfo->fn_extra = place;
}

static void refuse(const struct yk_error *error) {
    int code = error->status == YK_OUT_OF_MEMORY ? ERRCODE_OUT_OF_MEMORY
               : error->status == YK_ARITHMETIC  ? ERRCODE_NUMERIC_VALUE_OUT_OF_RANGE
                                                 : ERRCODE_INVALID_PARAMETER_VALUE;
    ereport(ERROR, (errcode(code), errmsg("yurkije: %s", error->message.at), errdetail("status %u", error->status)));
}

/* The attribute whose name stands at a byte of the expression, the longest; -1 if there is none. */
static int attribute_at(const struct place *place, size_t byte) {
    const char *words = VARDATA_ANY(place->words), *end = words + VARSIZE_ANY_EXHDR(place->words), *at = words + byte;
    int found = -1;
    size_t most = 0;
    at += at < end && *at == '"';
    for (int i = 0; byte < end - words && i < place->row->natts; i++) {
        const char *name = NameStr(TupleDescAttr(place->row, i)->attname);
        size_t length = strlen(name);
        if (length > most && length <= end - at && memcmp(name, at, length) == 0)
            found = i, most = length;
    }
    return found;
}

/* Reports a column of a type that is not taken, by PostgreSQL's name for that. */
static void refuse_untaken(const struct place *place, const struct yk_error *error) {
    int found = error->status == YK_UNTAKEN_FORMAT ? attribute_at(place, error->byte) : -1;
    if (found < 0)
        refuse(error);
    Form_pg_attribute attribute = TupleDescAttr(place->row, found);
    ereport(ERROR, (errcode(ERRCODE_FEATURE_NOT_SUPPORTED),
                       errmsg("yurkije: column \"%s\" is %s, which is not taken", NameStr(attribute->attname),
                           format_type_with_typemod(attribute->atttypid, attribute->atttypmod)),
                       errhint("Of such a column can be asked only whether it is null.")));
}

/* The columns of the row's type, as Arrow has them. */
struct columns {
    struct ArrowSchema schema, *schemas, **children;
    const char **formats;
};

static struct columns columns_of(TupleDesc row) {
    struct columns columns = {.schema = {.format = "+s"}};
    columns.schemas = palloc0((row->natts + 1) * sizeof *columns.schemas);
    columns.children = palloc((row->natts + 1) * sizeof *columns.children);
    columns.formats = palloc((row->natts + 1) * sizeof *columns.formats);
    columns.schema.children = columns.children;
    for (int i = 0; i < row->natts; i++) {
        Form_pg_attribute attribute = TupleDescAttr(row, i);
        struct ArrowSchema *schema = &columns.schemas[columns.schema.n_children];
        if (attribute->attisdropped)
            continue;
        *schema = (struct ArrowSchema){.name = NameStr(attribute->attname), .flags = ARROW_FLAG_NULLABLE};
        columns.formats[columns.schema.n_children] = format_of(attribute->atttypid, attribute->atttypmod);
        columns.children[columns.schema.n_children++] = schema;
    }
    return columns;
}

/* Reads the expression, with those formats for the columns of types that are not taken, of which one may have another. */
static uint32_t read_as(
    struct place *place, struct columns *columns, const char *format, int64_t odd, const char *odd_format, struct yk_error *error) {
    for (int64_t i = 0; i < columns->schema.n_children; i++)
        columns->schemas[i].format = columns->formats[i] != unknown_format ? columns->formats[i] : i == odd ? odd_format : format;
    uint32_t status =
        yk_arrow_expression_new(VARDATA_ANY(place->words), VARSIZE_ANY_EXHDR(place->words), &columns->schema, &place->expression, error);
    return status ? status : yk_answer_type(&place->expression, 0, &place->answer);
}

/* Whether the expression has the same type whatever the type of each column is that is not taken, so that it only asks whether that is
 * null: each is read as byte strings, and once as truth values. */
static bool asks_only_for_nulls(struct place *place, struct columns *columns) {
    struct yk_error unheard = {0};
    if (read_as(place, columns, "z", -1, NULL, &unheard))
        return false;
    uint32_t kind = place->answer.kind;
    for (int64_t i = 0; i < columns->schema.n_children; i++)
        if (columns->formats[i] == unknown_format && (read_as(place, columns, "z", i, "b", &unheard) || place->answer.kind != kind))
            return false;
    return read_as(place, columns, "z", -1, NULL, &unheard) == YK_OK;
}

/* Reads the expression over the columns of the row's type. */
static void read_expression(struct place *place) {
    struct columns columns = columns_of(place->row);
    char message[400];
    struct yk_error error = {.message = {message, sizeof message}};
    uint32_t status = read_as(place, &columns, unknown_format, -1, NULL, &error);
    if (status && (status != YK_UNTAKEN_FORMAT || !asks_only_for_nulls(place, &columns))) {
        yk_expression_free(&place->expression);
        refuse_untaken(place, &error);
    }
    pfree(columns.schemas);
    pfree(columns.children);
    pfree(columns.formats);
}

/* Ends the query if a call fails: its output is not read. */
static void check(uint32_t status) {
    if (status)
        ereport(ERROR, (errmsg("yurkije: the library answers status %u", status)));
}

/* Finds the attribute of each field, and makes its column of one row. */
static void make_columns(struct place *place) {
    check(yk_field_count(&place->expression, &place->count));
    place->attributes = MemoryContextAllocZero(place->context, (place->count + 1) * sizeof *place->attributes);
    place->are_known = MemoryContextAllocZero(place->context, (place->count + 1) * sizeof *place->are_known);
    place->columns = MemoryContextAllocZero(place->context, (place->count + 1) * sizeof *place->columns);
    place->numbers = MemoryContextAlloc(place->context, (place->count + 1) * sizeof *place->numbers);
    for (size_t i = 0; i < place->count; i++) {
        char name[NAMEDATALEN];
        size_t length = 0;
        struct yk_type type = {0};
        check(yk_field_name(&place->expression, i, name, sizeof name - 1, &length));
        name[length] = 0;
        check(yk_field_type(&place->expression, i, &type));
        for (int k = 0; k < place->row->natts; k++)
            if (!TupleDescAttr(place->row, k)->attisdropped && strcmp(NameStr(TupleDescAttr(place->row, k)->attname), name) == 0)
                place->attributes[i] = k;
        Form_pg_attribute attribute = TupleDescAttr(place->row, place->attributes[i]);
        place->are_known[i] = format_of(attribute->atttypid, attribute->atttypmod) != unknown_format;
        place->columns[i].kind = type.kind;
        place->columns[i].nullable = true;
        place->columns[i].rows = 1;
    }
}

/* Reads the expression, unless this place has read it over rows of that type. */
static void prepare(struct place *place, text *words, Oid type, int32 typmod) {
    if (place->expression.live && place->type == type && place->typmod == typmod &&
        VARSIZE_ANY_EXHDR(place->words) == VARSIZE_ANY_EXHDR(words) &&
        memcmp(VARDATA_ANY(place->words), VARDATA_ANY(words), VARSIZE_ANY_EXHDR(words)) == 0)
        return;
    if (GetDatabaseEncoding() != PG_UTF8)
        ereport(ERROR, (errcode(ERRCODE_FEATURE_NOT_SUPPORTED), errmsg("yurkije: the database's encoding is not UTF8")));
    MemoryContext before = MemoryContextSwitchTo(place->context);
    TupleDesc row = lookup_rowtype_tupdesc(type, typmod);
    place->row = CreateTupleDescCopy(row);
    ReleaseTupleDesc(row);
    place->words = DatumGetTextPCopy(PointerGetDatum(words));
    place->type = type;
    place->typmod = typmod;
    read_expression(place);
    make_columns(place);
    MemoryContextSwitchTo(before);
}

static void borrow_bytes(struct yk_column *column, int64 *number, const struct varlena *bytes) {
    int32_t *ends = (int32_t *)number;
    ends[0] = 0;
    ends[1] = bytes ? (int32_t)VARSIZE_ANY_EXHDR(bytes) : 0;
    column->offsets32 = (struct yk_i32s){ends, 2};
    column->data = (struct yk_bytes){bytes ? (const uint8_t *)VARDATA_ANY(bytes) : NULL, (size_t)ends[1]};
}

/* Borrows a value of the row for the call. Of a type that is not taken only the validity is. */
static void borrow(struct yk_column *column, int64 *number, Datum value, bool is_null, bool is_known) {
    column->validity = (struct yk_bytes){is_null ? null_bit : valid_bit, 1};
    if (column->kind == YK_UTF8 || column->kind == YK_BINARY) {
        borrow_bytes(column, number, is_null || !is_known ? NULL : PG_DETOAST_DATUM_PACKED(value));
        return;
    }
    *number = is_null ? 0 : number_of(column->kind, value);
    switch (column->kind % 256) {
    case YK_BOOL: column->bools = (struct yk_bytes){(const uint8_t *)number, 1}; break;
    case YK_I16: column->i16 = (struct yk_i16s){(const int16_t *)number, 1}; break;
    case YK_F32:
    case YK_DATE:
    case YK_I32: column->i32 = (struct yk_i32s){(const int32_t *)number, 1}; break;
    default: column->i64 = (struct yk_i64s){number, 1}; break;
    }
}

/* Runs the expression over the row of a call. */
static struct place *run(FunctionCallInfo fcinfo) {
    struct place *place = place_of(fcinfo);
    HeapTupleHeader header = PG_GETARG_HEAPTUPLEHEADER(1);
    HeapTupleData tuple = {.t_len = HeapTupleHeaderGetDatumLength(header), .t_data = header};
    char message[400];
    struct yk_error error = {.message = {message, sizeof message}};
    prepare(place, PG_GETARG_TEXT_PP(0), HeapTupleHeaderGetTypeId(header), HeapTupleHeaderGetTypMod(header));
    ItemPointerSetInvalid(&tuple.t_self);
    for (size_t i = 0; i < place->count; i++) {
        bool is_null;
        Datum value = heap_getattr(&tuple, place->attributes[i] + 1, place->row, &is_null);
        borrow(&place->columns[i], &place->numbers[i], value, is_null, place->are_known[i]);
    }
    if (yk_run(&place->expression, place->columns, place->count, 1, &place->answers, &error))
        refuse(&error);
    return place;
}

/* The output buffers of the answer, of one row. */
struct answer {
    uint8_t validity[1], bits[1];
    union {
        int16_t i16;
        int32_t i32;
        int64_t i64;
        float f32;
        double f64;
    } number;
    int32_t ends[2];
    struct yk_room room;
};

static bool copy_answer(struct place *place, struct answer *answer) {
    struct yk_size size = {0};
    check(yk_answer_size(&place->answers, 0, &size));
    answer->room = (struct yk_room){.kind = place->answer.kind, .validity = {answer->validity, 1}};
    switch (place->answer.kind % 256) {
    case YK_BOOL: answer->room.bools = (struct yk_bytes_room){answer->bits, 1}; break;
    case YK_I16: answer->room.i16 = (struct yk_i16s_room){&answer->number.i16, 1}; break;
    case YK_F32: answer->room.f32 = (struct yk_f32s_room){&answer->number.f32, 1}; break;
    case YK_F64: answer->room.f64 = (struct yk_f64s_room){&answer->number.f64, 1}; break;
    case YK_DATE:
    case YK_I32: answer->room.i32 = (struct yk_i32s_room){&answer->number.i32, 1}; break;
    case YK_TIMESTAMP:
    case YK_DECIMAL64:
    case YK_I64: answer->room.i64 = (struct yk_i64s_room){&answer->number.i64, 1}; break;
    case YK_UTF8:
    case YK_BINARY:
        answer->room.offsets32 = (struct yk_i32s_room){answer->ends, 2};
        answer->room.data = (struct yk_bytes_room){palloc(size.data + 1), size.data};
        break;
    default: ereport(ERROR, (errmsg("yurkije: the answer is of a type that PostgreSQL does not have")));
    }
    check(yk_answer_copy(&place->answers, 0, &answer->room));
    return answer->validity[0] & 1;
}

Datum yurkije_pg_is(PG_FUNCTION_ARGS) {
    struct place *place = run(fcinfo);
    struct answer answer;
    if (place->answer.kind != YK_BOOL)
        ereport(ERROR, (errcode(ERRCODE_DATATYPE_MISMATCH), errmsg("yurkije_is: the answer is no truth value")));
    if (!copy_answer(place, &answer))
        PG_RETURN_NULL();
    PG_RETURN_BOOL(answer.bits[0] & 1);
}

Datum yurkije_pg_text(PG_FUNCTION_ARGS) {
    struct place *place = run(fcinfo);
    struct answer answer;
    if (!copy_answer(place, &answer))
        PG_RETURN_NULL();
    switch (place->answer.kind % 256) {
    case YK_BOOL: PG_RETURN_TEXT_P(cstring_to_text(answer.bits[0] & 1 ? "true" : "false"));
    case YK_I16: PG_RETURN_TEXT_P(cstring_to_text(psprintf("%d", answer.number.i16)));
    case YK_I32: PG_RETURN_TEXT_P(cstring_to_text(psprintf("%d", answer.number.i32)));
    case YK_I64: PG_RETURN_TEXT_P(cstring_to_text(psprintf("%lld", (long long)answer.number.i64)));
    case YK_F32: PG_RETURN_TEXT_P(cstring_to_text(DatumGetCString(DirectFunctionCall1(float4out, Float4GetDatum(answer.number.f32)))));
    case YK_F64: PG_RETURN_TEXT_P(cstring_to_text(DatumGetCString(DirectFunctionCall1(float8out, Float8GetDatum(answer.number.f64)))));
    case YK_DATE: PG_RETURN_TEXT_P(write_date(answer.number.i32));
    case YK_TIMESTAMP: PG_RETURN_TEXT_P(write_timestamp(answer.number.i64));
    case YK_DECIMAL64: PG_RETURN_TEXT_P(write_decimal(answer.number.i64, (int)YK_DECIMAL_SCALE(place->answer.kind)));
    case YK_UTF8: PG_RETURN_TEXT_P(cstring_to_text_with_len((char *)answer.room.data.at, answer.ends[1]));
    default: PG_RETURN_TEXT_P(cstring_to_text("bytes"));
    }
}
