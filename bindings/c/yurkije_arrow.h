/*
 * Arrow's C data interface over yurkije.h: batches in, batches out.
 *
 *     struct yk_expression expression = {0};
 *     struct ArrowSchema answers_schema;
 *     struct ArrowArray answers;
 *     if (yk_arrow_expression_new(text, strlen(text), &schema, &expression, &error)
 *         || yk_arrow_schema(&expression, &answers_schema, &error)
 *         || yk_arrow_run(&expression, &schema, &batch, &answers, &error))
 *         fprintf(stderr, "%s\n", message);
 *
 * A batch is a struct array, format `+s`, with a child for each column. Supported are the
 * formats b, c, C, s, S, i, I, l, L, u, U, vu, z, Z, vz, g, f, tdD, tdm, tss:, tsm:, tsu:, tsn: and
 * d:, none of them in a dictionary; other columns are allowed as long as no answer reads them; if one
 * does, the error names the column. Of these are converted, once for each run:
 *
 *     tdm               days, as milliseconds: YK_DATE
 *     tss: tsm: tsn:    seconds, milliseconds, nanoseconds: YK_TIMESTAMP, of microseconds
 *     d:p,s             decimals of 128 bits, or of 32, 64 or 256 (`d:p,s,32`): YK_DECIMAL(p, s), and
 *                       YK_DECIMAL(18, s) where p is more than 18
 *
 * A value that is no whole day or microsecond, or that has more digits than the kind, is an error with
 * its row, YK_UNTAKEN_VALUE; what lies under a null may be anything. Behind the colon of a timestamp's
 * format the name of a time zone may stand. It is dropped: such values are instants, and the
 * microseconds are those of UTC. Answers that are dates come out as tdD, timestamps as tsu:, decimals
 * as d:p,s of 128 bits.
 *
 * Who owns what
 *
 * - Schemas and batches that come in are borrowed for the call: neither released nor changed. A
 *   stream that comes in is moved, as in Arrow: yk_arrow_stream leaves it released.
 * - What comes out belongs to the caller, who releases it, once, on any thread. Its children may
 *   be moved out, as Arrow allows. After an error, what a call fills is left released (`release`
 *   is NULL).
 * - A producer's buffers are trusted only to be as long as length, offset and format require,
 *   since pointers cannot be checked. Everything else is checked.
 */
#ifndef YURKIJE_ARROW_H
#define YURKIJE_ARROW_H

#include "yurkije.h"

#ifdef __cplusplus
extern "C" {
#endif

/* The structs as in Arrow's specification, unless another header defined them before. */
#ifndef ARROW_C_DATA_INTERFACE
#define ARROW_C_DATA_INTERFACE

#define ARROW_FLAG_DICTIONARY_ORDERED 1
#define ARROW_FLAG_NULLABLE 2
#define ARROW_FLAG_MAP_KEYS_SORTED 4

struct ArrowSchema {
    const char *format;
    const char *name;
    const char *metadata;
    int64_t flags;
    int64_t n_children;
    struct ArrowSchema **children;
    struct ArrowSchema *dictionary;
    void (*release)(struct ArrowSchema *);
    void *private_data;
};

struct ArrowArray {
    int64_t length;
    int64_t null_count;
    int64_t offset;
    int64_t n_buffers;
    int64_t n_children;
    const void **buffers;
    struct ArrowArray **children;
    struct ArrowArray *dictionary;
    void (*release)(struct ArrowArray *);
    void *private_data;
};

#endif

#ifndef ARROW_C_STREAM_INTERFACE
#define ARROW_C_STREAM_INTERFACE

struct ArrowArrayStream {
    int (*get_schema)(struct ArrowArrayStream *, struct ArrowSchema *out);
    int (*get_next)(struct ArrowArrayStream *, struct ArrowArray *out);
    const char *(*get_last_error)(struct ArrowArrayStream *);
    void (*release)(struct ArrowArrayStream *);
    void *private_data;
};

#endif

/* Statuses of these calls, besides those of yurkije.h. */
enum yk_arrow_status {
    YK_UNTAKEN_FORMAT = 140,  /* a column that is read has an unsupported format, such as lists */
    YK_MALFORMED_ARRAY = 141, /* an array unlike its schema, or a batch that is no struct */
    YK_STREAM_FAILED = 142,   /* the stream that came in reported an error */
    YK_UNTAKEN_VALUE = 143    /* in that row a value has no place in its kind: see the formats above */
};

/* How many rows are run at a time. */
#define YK_ARROW_BATCH 8192

/* The field of a schema: its name, kind and whether it is nullable. The name is borrowed from
 * the schema. YK_UNTAKEN_FORMAT if its format is not supported. */
uint32_t yk_arrow_field(const struct ArrowSchema *schema, struct yk_field *field, struct yk_error *error);

/* How many slices the buffers of an array by views need, or its converted values: 0 for any other. */
size_t yk_arrow_buffer_count(const struct ArrowSchema *schema, const struct ArrowArray *array);

/* The column of an array, borrowed from it, and from `buffers` where it is by views or its values are
 * converted. `buffers` has room for as many slices as yk_arrow_buffer_count returns, and must outlive the
 * column. YK_UNTAKEN_VALUE, with the row, where a value is not converted. */
uint32_t yk_arrow_column(const struct ArrowSchema *schema, const struct ArrowArray *array, struct yk_bytes *buffers,
    struct yk_column *column, struct yk_error *error);

/* Reads the answers of a text over the columns of a struct schema. Those that an answer reads
 * are the fields of the expression. */
uint32_t yk_arrow_expression_new(
    const char *text, size_t length, const struct ArrowSchema *schema, struct yk_expression *expression, struct yk_error *error);

/* The schema of the expression's answers: a struct with a child for each answer, texts and byte
 * strings by offsets of 32 bits, decimals of 128 bits. */
uint32_t yk_arrow_schema(const struct yk_expression *expression, struct ArrowSchema *out, struct yk_error *error);

/* Runs the expression over a batch: its fields are the columns of their names, of which those that no
 * answer reads are not looked at. Rows are reported by their number in the batch, columns by that of
 * the field: first what is malformed or not converted, then what a run reports. */
uint32_t yk_arrow_run(const struct yk_expression *expression, const struct ArrowSchema *schema, const struct ArrowArray *batch,
    struct ArrowArray *out, struct yk_error *error);

/* Runs the expression over columns of any length, YK_ARROW_BATCH rows at a time. Fails as yk_run
 * over all rows does: with the same column, row and answer. */
uint32_t yk_arrow_answer(const struct yk_expression *expression, const struct yk_column *columns, size_t count, size_t rows,
    struct ArrowArray *out, struct yk_error *error);

/* Another struct array over the same buffers as one that these calls filled, released separately:
 * the buffers are freed with the last. Both are read-only from then on. */
uint32_t yk_arrow_share(const struct ArrowArray *array, struct ArrowArray *out);

/* The numbers of the rows in which answer `answer`, a truth value, is true, of columns of any
 * length: as yk_select returns them. `numbers` has room for one number a row, which is always
 * enough. Fails as yk_arrow_answer does. */
uint32_t yk_arrow_select(const struct yk_expression *expression, size_t answer, const struct yk_column *columns, size_t count, size_t rows,
    uint64_t *numbers, size_t *selected, struct yk_error *error);

/* Whether answer `answer`, a truth value, is true in each row of columns of any length: a byte a
 * row, 1 where it is true and 0 where it is false or null. `mask` has room for a byte a row;
 * after an error its bytes are arbitrary. Fails as yk_arrow_answer does. */
uint32_t yk_arrow_mask(const struct yk_expression *expression, size_t answer, const struct yk_column *columns, size_t count, size_t rows,
    uint8_t *mask, struct yk_error *error);

/* The stream of a text's answers over the batches of a stream, which is moved even if the call
 * fails. It holds no handle, since each of its calls reads the text again: make one call at a
 * time, on any thread. Rows are reported by their number in the whole stream. */
uint32_t yk_arrow_stream(
    const char *text, size_t length, struct ArrowArrayStream *in, struct ArrowArrayStream *out, struct yk_error *error);

/* The last error of a stream that yk_arrow_stream made; valid until the next call. */
const struct yk_error *yk_arrow_stream_error(struct ArrowArrayStream *stream);

#ifdef __cplusplus
}
#endif

#endif
