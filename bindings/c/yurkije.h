/*
 * Yurkije: expressions over columns, for C and C++.
 *
 * An expression is a text over named fields, `price * stock as worth, name like 'a%'`. It is read
 * once, and then run over as many batches of columns as there are. Columns lie in buffers of the
 * caller, in the layout of Apache Arrow. Expressions of comparisons, `and`, `or`, `not` and most
 * arithmetic read them there (docs/EMBEDDING.md lists the calls); for others a run copies each that
 * an answer reads once, part by part where none is of texts or byte strings. Nothing of the caller's
 * is kept. Answers are columns, which are copied into buffers of the caller in the same layout.
 *
 *     struct yk_expression expression;
 *     struct yk_answers answers;
 *     struct yk_error error;
 *     struct yk_column columns[2];
 *     char message[200];
 *     memset(&expression, 0, sizeof expression);
 *     memset(&answers, 0, sizeof answers);
 *     memset(&error, 0, sizeof error);
 *     memset(columns, 0, sizeof columns);
 *     error.message.at = message;
 *     error.message.length = sizeof message;
 *
 *     const char text[] = "price * stock > 100";
 *     struct yk_field fields[] = {{{"price", 5}, YK_I64, false}, {{"stock", 5}, YK_I64, true}};
 *     if (yk_expression_new(text, sizeof text - 1, fields, 2, &expression, &error)) {
 *         fprintf(stderr, "%s\n", message);
 *         return 1;
 *     }
 *     for (int k = 0; k < 2; k++) {
 *         columns[k].kind = YK_I64;
 *         columns[k].nullable = fields[k].nullable;
 *         columns[k].rows = rows;
 *         columns[k].i64.length = rows;
 *     }
 *     columns[0].i64.at = prices;
 *     columns[1].i64.at = stocks;
 *     columns[1].validity.at = valid;
 *     columns[1].validity.length = (rows + 7) / 8;
 *     if (yk_run(&expression, columns, 2, rows, &answers, &error) == YK_OK)
 *         yk_select(&answers, 0, numbers, rows, &count);    // the rows in which it is true
 *     yk_answers_free(&answers);
 *     yk_expression_free(&expression);
 *
 * What the caller keeps
 *
 * 1. A handle (struct yk_expression, struct yk_answers) is zeroed before its first use. It is moved
 *    and never copied: of two copies only one may be used again. Its members are given back as the
 *    library left them. A zeroed handle holds nothing, and may be freed.
 * 2. A pointer is not NULL, but for one to a slice of length 0 (`at` and `length` in structs, a
 *    pointer and a length beside one another in calls), and points to as many items as the length
 *    says, aligned for their type. Structs are zeroed where nothing is set. A `bool` is 0 or 1.
 * 3. What a call reads is neither written by another thread nor freed while the call runs. What a
 *    call writes to (handles, `yk_error`, rooms, counts) overlaps nothing else that it is handed.
 *    Behind the call the library keeps no pointer to anything of the caller's.
 * 4. Calls that take a `const` handle only read it: any number of threads may make them at once over
 *    one handle. A call that fills or frees a handle may be made by any thread, while no other call
 *    over it runs; a lock, a start or a join orders it with the calls of other threads.
 * 5. No call is made from a signal handler, nor in the forked child of a process with threads.
 *    `malloc`, `realloc` and `free` are the C library's, or do what its do.
 *
 * What the library keeps
 *
 * - A call that fills a handle frees first what the handle held. Where the call is refused, the
 *   handle is empty. Other calls leave a handle as it was, refused or not.
 * - Where a handle holds nothing, or nothing of that number, what a call was to write is as it was;
 *   `yk_error` tells it.
 * - It frees what it allocated, when the handle is freed; it frees nothing of the caller's.
 * - Where memory is refused, a call answers YK_OUT_OF_MEMORY and leaks nothing. It never aborts.
 * - Calls read nothing outside of the slices that they are handed, whatever stands in them.
 *
 * A batch of which no column that is read and no answer is of texts or byte strings runs in parts of
 * 2,048 rows (with long lists up to 65,536; one call over columns where they lie as a whole), and may
 * have any number of rows. With texts or byte strings batches of some 8,192 rows run fastest: for
 * larger ones the C library may give memory back to the system and fetch it again at each call.
 */
#ifndef YURKIJE_H
#define YURKIJE_H

#include <stdbool.h>
#include <stddef.h>
#include <stdint.h>

#ifdef __cplusplus
extern "C" {
#endif

/* The version of this interface, which yk_abi_version answers. */
#define YK_ABI_VERSION 1

/* What a call answers. 1 to 13 are E1 to E13 of docs/REFUSALS.md. Of these 1, 10 and 13 are of calls
 * that this interface does not have: no expression leads to them. */
enum yk_status {
    YK_OK = 0,

    YK_INDEX_OUT_OF_BOUNDS = 1,  /* a function of a caller's asks for an operand past its last */
    YK_LENGTH_MISMATCH = 2,      /* a column has another number of rows than the batch */
    YK_TYPE_MISMATCH = 3,        /* a function does not take the types of its operands */
    YK_NOT_BOOLEAN_OPERATOR = 4, /* And and Or are handed another operator */
    YK_NOT_COMPARE_OPERATOR = 5, /* a comparison is handed another operator */
    YK_ARITY_MISMATCH = 6,       /* a function has too few or too many operands */
    YK_ARITHMETIC = 7,           /* in that row a result does not fit its type, or is divided by 0 */
    YK_BAD_OPTIONS = 8,          /* bytes that are no options of a function */
    YK_OUT_OF_MEMORY = 9,        /* malloc or realloc gave none */
    YK_CUSTOM = 10,              /* a function of a caller's faults in a row */
    YK_SCOPE_MISMATCH = 11,      /* no field has that name; a column is missing, or is not as its field */
    YK_INVALID_COLUMN = 12,      /* the parts of a column or a value do not fit one another */
    YK_NO_SUCH_PLACE = 13,       /* a path of nodes leads out of an expression */

    /* Wrong use. */
    YK_EMPTY_HANDLE = 100,       /* the handle holds nothing */
    YK_NO_SUCH_NUMBER = 101,     /* there is no answer, or no field, of that number */
    YK_UNKNOWN_KIND = 102,       /* a kind that is none */
    YK_OTHER_KIND = 103,         /* the answer is of another kind than is asked for: a date is no int32_t */
    YK_ROOM_TOO_SMALL = 104,     /* a text has more bytes than there is room */

    /* Why a text is no expression. */
    YK_NOT_A_TEXT = 110,         /* the text, or the name of a field, is not UTF-8 */
    YK_NAME_TWICE = 111,         /* two fields have one name */
    YK_NO_EXPRESSION = 112,      /* it is not written as expressions are */
    YK_UNKNOWN_TYPE = 113,       /* no type has that name */
    YK_NOT_HELD = 114,           /* a literal is no value of its type */
    YK_UNTYPED_NULL = 115,       /* no call returns it now: a null that nothing gives a type is a text */
    YK_NO_ESCAPE = 116,          /* the escape of a LIKE is more than one character */
    YK_NO_CAST = 117,            /* no cast leads to that type */
    YK_NO_FUNCTION = 118,        /* no function has that name */
    YK_NOT_OF_KIND = 119,        /* a literal is no date, timestamp, decimal or float, as it stands beside one */

    /* Why a column is not read, or an answer not copied. */
    YK_VALIDITY_TOO_SHORT = 120, /* fewer bits than the rows take */
    YK_VALUES_TOO_SHORT = 121,   /* fewer truth values, integers or views */
    YK_OFFSETS_TOO_SHORT = 122,  /* fewer offsets than the rows and one more */
    YK_DATA_TOO_SHORT = 123,     /* fewer bytes than the texts of an answer have */
    YK_UNEXPECTED_NULL = 124,    /* a null in a column that is not nullable */
    YK_OFFSETS_FALL = 125,       /* an offset is negative, or below the one before it */
    YK_PAST_DATA = 126,          /* an offset is past the end of the data */
    YK_VIEW_OUT_OF_RANGE = 127,  /* a view names bytes that are not there */
    YK_PREFIX_DIFFERS = 128,     /* a view tells other first bytes than its buffer has */
    YK_NOT_PADDED = 129,         /* a text within its view is not followed by zeros */
    YK_NOT_UTF8 = 130,           /* a text in a row that is not null is not UTF-8 */
    YK_TOO_LONG = 131,           /* texts are too long to be told, one or all together */
    YK_CONTRADICTION = 132       /* the statistics of a field contradict themselves in a group */
};

/* Kinds of values. Those from YK_F64 on came after the first: a library that does not have them answers
 * YK_UNKNOWN_KIND, and no struct has changed with them. What lies in a column of theirs is not checked:
 * days and microseconds may be out of the years that a text can name, and decimals may have more digits
 * than their kind. Of texts and byte strings a kind says the layout of a column too; where only a
 * type is meant, in fields, each of the three layouts stands for the type, and the library answers
 * YK_UTF8 and YK_BINARY. */
enum yk_kind {
    YK_NO_KIND = 0,        /* none of these, as a list or a struct is, which scripts can have */
    YK_BOOL = 1,
    YK_I8 = 2,
    YK_I16 = 3,
    YK_I32 = 4,
    YK_I64 = 5,
    YK_U8 = 6,
    YK_U16 = 7,
    YK_U32 = 8,
    YK_U64 = 9,
    YK_UTF8 = 10,          /* texts in UTF-8, by offsets of 32 bits */
    YK_LARGE_UTF8 = 11,    /* by offsets of 64 bits */
    YK_UTF8_VIEW = 12,     /* by views of 16 bytes; not as a room */
    YK_BINARY = 13,        /* byte strings, by offsets of 32 bits */
    YK_LARGE_BINARY = 14,
    YK_BINARY_VIEW = 15,
    YK_F64 = 16,           /* floats, as `double`. A NaN equals a NaN and is the greatest; -0 is read as 0 */
    YK_F32 = 17,           /* floats, as `float` */
    YK_DATE = 18,          /* days since 1970-01-01, as `int32_t` */
    YK_TIMESTAMP = 19,     /* microseconds since 1970-01-01T00:00:00, as `int64_t` */
    YK_DECIMAL64 = 20      /* the last byte of a kind of decimals: see YK_DECIMAL */
};

/* The kind of decimals of at most `precision` digits, 1 to 18, of which the last `scale` stand after
 * the point: as the integers of their digits without the point, of `int64_t`. 12.50 in two places is
 * 1250. YK_DECIMAL_PRECISION and YK_DECIMAL_SCALE say what such a kind has; `kind & 255` is
 * YK_DECIMAL64 of each of them, and of no other kind. */
#define YK_DECIMAL(precision, scale) ((uint32_t)(YK_DECIMAL64 + 256 * (precision) + 65536 * (scale)))
#define YK_DECIMAL_PRECISION(kind) ((kind) / 256 % 256)
#define YK_DECIMAL_SCALE(kind) ((kind) / 65536)

/* Where there is no answer, column, row or byte to tell. */
#define YK_NONE SIZE_MAX

/* Handles. Zeroed, they hold nothing. */
struct yk_expression { void *at; bool live; };
struct yk_answers { void *at; bool live; };

/* Slices that are read: `length` items from `at` on. */
struct yk_text { const char *at; size_t length; };
struct yk_bytes { const uint8_t *at; size_t length; };
struct yk_i8s { const int8_t *at; size_t length; };
struct yk_i16s { const int16_t *at; size_t length; };
struct yk_i32s { const int32_t *at; size_t length; };
struct yk_i64s { const int64_t *at; size_t length; };
struct yk_f32s { const float *at; size_t length; };
struct yk_f64s { const double *at; size_t length; };
struct yk_u16s { const uint16_t *at; size_t length; };
struct yk_u32s { const uint32_t *at; size_t length; };
struct yk_u64s { const uint64_t *at; size_t length; };
struct yk_views { const uint8_t (*at)[16]; size_t length; };
struct yk_buffers { const struct yk_bytes *at; size_t length; };

/* Slices that are written. */
struct yk_text_room { char *at; size_t length; };
struct yk_bytes_room { uint8_t *at; size_t length; };
struct yk_i8s_room { int8_t *at; size_t length; };
struct yk_i16s_room { int16_t *at; size_t length; };
struct yk_i32s_room { int32_t *at; size_t length; };
struct yk_i64s_room { int64_t *at; size_t length; };
struct yk_f32s_room { float *at; size_t length; };
struct yk_f64s_room { double *at; size_t length; };
struct yk_u16s_room { uint16_t *at; size_t length; };
struct yk_u32s_room { uint32_t *at; size_t length; };
struct yk_u64s_room { uint64_t *at; size_t length; };

/* Why a call was refused. The caller sets `message`, or leaves it zeroed; the call sets all else,
 * and where it is not refused, `status` to YK_OK. */
struct yk_error {
    uint32_t status;             /* what the call answered */
    size_t answer;               /* the answer that faults, from 0 on, or YK_NONE */
    size_t column;               /* the column or field, from 0 on, or YK_NONE */
    size_t row;                  /* the row of the batch, from 0 on, or YK_NONE */
    size_t byte;                 /* the byte of the text, from 0 on, or YK_NONE */
    size_t line;                 /* the line of the text, from 1 on, or 0 */
    size_t character;            /* the character in that line, from 1 on, or 0 */
    struct yk_text_room message; /* in words, one line of UTF-8 that ends with a NUL: as many whole
                                    characters as there is room for; `out of memory` where there is
                                    none for the words, and empty where nothing is refused */
    size_t message_length;       /* its bytes, without the NUL */
};

/* A field of the scope of an expression: column `k` of a batch is that of field `k`. */
struct yk_field {
    struct yk_text name;
    uint32_t kind;
    bool nullable;
};

/* The type of an answer or of a field. */
struct yk_type {
    uint32_t kind;
    bool nullable;
};

/* A column, which is borrowed for a run: read where it lies or, where an answer reads it, copied
 * once. Row `i` is item `offset + i`: bit of the validity and of truth values, integer, view, and
 * text from its offset to the next. `kind` says which of the slices are read; the others stay
 * zeroed. A column that no answer reads may be zeroed as a whole. No row is null where `validity` is
 * empty. What lies under a null may be anything, but for offsets: there too they are not negative,
 * do not fall, and do not pass the end of `data`. Of rows that are wrong the first is told. Texts
 * that are too long are told where no row is wrong, byte strings that are too long in their row's
 * turn. */
struct yk_column {
    uint32_t kind;
    bool nullable;               /* as the field is */
    size_t rows;
    size_t offset;
    struct yk_bytes validity;    /* a bit an item, least significant first: set where it is not null */
    struct yk_bytes bools;       /* likewise: set where it is true */
    struct yk_i8s i8;
    struct yk_i16s i16;
    union {
        struct yk_i32s i32;      /* of YK_DATE too */
        struct yk_f32s f32;
    };
    union {
        struct yk_i64s i64;      /* of YK_TIMESTAMP and decimals too */
        struct yk_f64s f64;
    };
    struct yk_bytes u8;
    struct yk_u16s u16;
    struct yk_u32s u32;
    struct yk_u64s u64;
    struct yk_i32s offsets32;    /* one more than there are items; of YK_UTF8 and YK_BINARY */
    struct yk_i64s offsets64;    /* of YK_LARGE_UTF8 and YK_LARGE_BINARY */
    struct yk_bytes data;        /* which the offsets name */
    struct yk_views views;
    struct yk_buffers buffers;   /* which the views name */
};

/* What is known of a field in each of several groups of rows, as a file or a table keeps it for parts
 * of its rows: columns with an item a group, borrowed for a call and copied once. A column of 0 rows,
 * as a zeroed one, says nothing of any group, and a null says nothing of its group. What is said has to
 * be so: a verdict is of rows of which it is. */
struct yk_statistics {
    struct yk_column low;        /* of the field's type: no row that is not null is below it. It need not
                                    be the value of a row: a text that was cut off is a low end */
    struct yk_column high;       /* of the field's type: no row that is not null is above it. A NaN is the
                                    greatest float: of ends that leave NaN out pass the low one alone, unless
                                    no row is NaN; an end that is NaN itself was made of no row */
    struct yk_column nulls;      /* YK_U64: how many rows are null */
};

/* What is known of a condition in each row of a group. */
enum yk_verdict {
    YK_UNKNOWN = 0,              /* nothing */
    YK_NONE_TRUE = 1,            /* no row is true: each is false or null, or faults */
    YK_ALL_TRUE = 2              /* every row is true, and none faults */
};

/* The caller's buffers for what is known of groups, an item a group. One of length 0 is not asked for. */
struct yk_verdicts {
    struct yk_bytes_room verdicts;  /* a yk_verdict */
    struct yk_bytes_room may_fault; /* 0 where no row faults, else 1 */
    struct yk_u64s_room least;      /* at least so many rows are true */
    struct yk_u64s_room most;       /* and at most so many */
};

/* What an answer takes: how long the slices of a yk_room have to be at least. */
struct yk_size {
    size_t rows;
    size_t validity;             /* bytes of bits */
    size_t values;               /* integers or floats, or bytes of truth values; 0 of texts */
    size_t offsets;              /* rows + 1 of texts and byte strings, else 0 */
    size_t data;                 /* bytes of texts and byte strings, else 0 */
};

/* The caller's buffers for an answer. `kind` is the answer's, and of texts and byte strings says
 * whether `offsets32` or `offsets64` is written; the slices that are not stay zeroed. */
struct yk_room {
    uint32_t kind;
    struct yk_bytes_room validity;
    struct yk_bytes_room bools;
    struct yk_i8s_room i8;
    struct yk_i16s_room i16;
    union {
        struct yk_i32s_room i32; /* of YK_DATE too */
        struct yk_f32s_room f32;
    };
    union {
        struct yk_i64s_room i64; /* of YK_TIMESTAMP and decimals too */
        struct yk_f64s_room f64;
    };
    struct yk_bytes_room u8;
    struct yk_u16s_room u16;
    struct yk_u32s_room u32;
    struct yk_u64s_room u64;
    struct yk_i32s_room offsets32;
    struct yk_i64s_room offsets64;
    struct yk_bytes_room data;
};

/* The version of the interface that the library has. A caller that was compiled for another than
 * YK_ABI_VERSION cannot use it. */
uint32_t yk_abi_version(void);

/* The library's name and version, as `yurkije 0.1.0`: as much as there is room for, and in `length`
 * how many bytes it has. YK_ROOM_TOO_SMALL where that is more. No NUL ends it. */
uint32_t yk_version(char *room, size_t room_length, size_t *length);

/* Reads the answers of a text over the fields of a scope, `price * stock as worth, price > 100`
 * (docs/EXPRESSIONS.md). Refused with the place in the text where it is wrong; or with the number
 * of a field whose kind or name is wrong, as `column`. */
uint32_t yk_expression_new(const char *text, size_t length,
                           const struct yk_field *fields, size_t count,
                           struct yk_expression *expression, struct yk_error *error);

/* Frees what the handle holds, if anything, and leaves it empty. */
void yk_expression_free(struct yk_expression *expression);

/* How many fields the scope has. */
uint32_t yk_field_count(const struct yk_expression *expression, size_t *count);

/* The name of field `field`, as yk_version answers its text, and its type. */
uint32_t yk_field_name(const struct yk_expression *expression, size_t field,
                       char *room, size_t room_length, size_t *length);
uint32_t yk_field_type(const struct yk_expression *expression, size_t field, struct yk_type *type);

/* The numbers of the fields that an answer reads, ascending, and how many they are. `numbers` has room
 * for `room` of them, at most as many as there are fields. YK_ROOM_TOO_SMALL where that is less room;
 * then none is written, and `count` is told even so. */
uint32_t yk_fields_read(const struct yk_expression *expression, size_t *numbers, size_t room, size_t *count);

/* How many answers the expression has: at least one. */
uint32_t yk_answer_count(const struct yk_expression *expression, size_t *count);

/* The name of answer `answer`, as yk_version answers its text: the one behind its `as`, or that of
 * the field which it is, or its text, with one blank between two words or signs where one is
 * needed. And its type. */
uint32_t yk_answer_name(const struct yk_expression *expression, size_t answer,
                        char *room, size_t room_length, size_t *length);
uint32_t yk_answer_type(const struct yk_expression *expression, size_t answer, struct yk_type *type);

/* The text of answer `answer`, as it was read, or as it is run: optimized. As yk_version answers its
 * text. */
uint32_t yk_answer_text(const struct yk_expression *expression, size_t answer, bool optimized,
                        char *room, size_t room_length, size_t *length);

/* Runs the expression over a batch: as many columns as there are fields, each that an answer reads of
 * the field's kind, nullable as the field is, and of `rows` rows. The columns of other fields are
 * neither read nor checked: yk_fields_read has the numbers of those that are. Refused with the column
 * and the row that are wrong, or with the first row in which an answer faults as it is run, and the
 * first answer that does there; as it was written it faults there, too. What is run is optimized, which
 * may drop a fault: then there are answers, of any value in that row, and in all others those of the
 * expression as it was written. So batches answer as the whole does. */
uint32_t yk_run(const struct yk_expression *expression,
                const struct yk_column *columns, size_t count, size_t rows,
                struct yk_answers *answers, struct yk_error *error);

/* What is known of answer `answer`, a truth value, in each of `groups` groups of rows, of which group
 * `g` has `rows[g]`, without a row: by statistics of the fields, as many as there are fields, in their
 * order. Of all columns that they describe in a group
 *
 * - YK_NONE_TRUE says that no row of the answer is true, and YK_ALL_TRUE that every row is,
 * - 0 in `may_fault` says that no row of it faults,
 * - `least` and `most` are ends of the number of its true rows.
 *
 * They say so of the answer as yk_run runs it, optimized (yk_answer_text). So a caller may leave out a
 * group of YK_NONE_TRUE that cannot fault: a run over it would not be refused for this answer, and
 * would select no row. And it may take a group of YK_ALL_TRUE whole. Where a row may fault,
 * YK_NONE_TRUE says no more than that a run over the group selects no row or is refused. As it was
 * written, the answer has the same values in each row in which it does not fault; optimizing may drop
 * a fault, and makes none.
 *
 * YK_TYPE_MISMATCH where the answer is no truth value. `column` and, of a group, `row` tell which
 * statistics are wrong: YK_SCOPE_MISMATCH for fewer or more than fields, or of another type than the
 * field (nullable or not: both are taken); YK_LENGTH_MISMATCH for more or fewer items than groups;
 * YK_CONTRADICTION where a low end is above the high one, or more rows are null than there are, or some
 * are in a field that is not nullable; else what yk_run tells of columns. YK_VALUES_TOO_SHORT for a
 * buffer that is asked for and has fewer items than there are groups. Where the call is refused nothing
 * is written. What lies behind the groups stays as it was. */
uint32_t yk_prune(const struct yk_expression *expression, size_t answer,
                  const struct yk_statistics *statistics, size_t count,
                  const uint64_t *rows, size_t groups,
                  struct yk_verdicts *verdicts, struct yk_error *error);

/* Frees what the handle holds, if anything, and leaves it empty. */
void yk_answers_free(struct yk_answers *answers);

/* How long the buffers have to be for answer `answer`. YK_TOO_LONG where its texts have more bytes
 * than a size_t counts; YK_OTHER_KIND where it is a list or a struct, of which none is copied. */
uint32_t yk_answer_size(const struct yk_answers *answers, size_t answer, struct yk_size *size);

/* Copies answer `answer` into the caller's buffers, each from its first item on: the bits of rows
 * that are not null, and the values. What lies behind stays as it was, and all where the copy is
 * refused. Texts stand one behind another: the first offset is 0, and a null has no bytes. */
uint32_t yk_answer_copy(const struct yk_answers *answers, size_t answer, struct yk_room *room);

/* The numbers of the rows in which answer `answer`, a truth value, is true, ascending from 0 on, and
 * how many they are. YK_VALUES_TOO_SHORT where there is less room, and `count` is told even so. */
uint32_t yk_select(const struct yk_answers *answers, size_t answer,
                   uint64_t *numbers, size_t room, size_t *count);

/* The same with numbers of 32 bits. YK_TOO_LONG where rows have numbers that these do not hold. */
uint32_t yk_select_u32(const struct yk_answers *answers, size_t answer,
                       uint32_t *numbers, size_t room, size_t *count);

/* Whether answer `answer`, a truth value, is true in each row: a byte a row, 1 where it is true, and 0
 * where it is false or null. What lies behind stays as it was. YK_VALUES_TOO_SHORT where there is room
 * for fewer bytes than rows, and then none is written. */
uint32_t yk_mask(const struct yk_answers *answers, size_t answer, uint8_t *mask, size_t room);

#ifdef __cplusplus
}
#endif

#endif
