/* Shared by the files of the shim. Not installed. */
#ifndef YURKIJE_ARROW_SHARED_H
#define YURKIJE_ARROW_SHARED_H

#include "yurkije_arrow.h"

/* The rest is internal: the shared object does not export it. */
#pragma GCC visibility push(hidden)

/* The layout of a kind in Arrow: its format, its number of buffers, and the bytes of a value or an
 * offset, 0 for bits. Where `made` is not 0, each value is converted into an integer of that many
 * bytes: multiplied by `times`, and divided by `parts`, which has to leave no rest. */
struct layout {
    const char *format;
    uint32_t kind;
    int64_t buffers;
    size_t width;
    size_t made;
    int64_t times, parts;
};

enum { YK_MILLISECONDS_OF_DAY = 86400000 };

/* The layout in which an answer of a kind comes out; NULL if none does. */
const struct layout *yk_layout_of_kind(uint32_t kind);

/* Finds the layout of a format. False if it is not supported. */
bool yk_layout_of_format(const char *format, struct layout *layout);

/* The name of an unsupported format. */
const char *yk_format_name(const char *format);

/* How many slices the converted values of an array take: 0 if they are borrowed as they are. */
size_t yk_made_count(const struct layout *layout, const struct ArrowArray *array);

/* Converts the values of an array into a room of so many slices, and sets the column's values and its
 * offset. Refused with the first row whose value its kind does not have. */
uint32_t yk_make_values(const struct layout *layout, const struct ArrowArray *array, const char *name, struct yk_bytes *room,
    struct yk_column *column, struct yk_error *error);

/* Makes decimals of 128 bits of those of 64 that lie at the start of their place. */
void yk_widen_decimals(uint8_t *values, size_t rows);

/* Sets the one slice of values that the kind has. */
void yk_set_values(const void *at, struct yk_column *column);

static inline size_t yk_bytes_for(size_t bits) { return bits / 8 + (bits % 8 != 0); }

/* Sets everything but the message, as without an error. */
void yk_reset(struct yk_error *error);

/* Writes the words of an error, as by printf, and returns its status. */
uint32_t yk_refuse(struct yk_error *error, uint32_t status, size_t column, const char *words, ...) __attribute__((format(printf, 4, 5)));
uint32_t yk_refuse_memory(struct yk_error *error);

/* Changes the reported row to its number in the whole; that many rows come before the batch. */
void yk_add_to_row(struct yk_error *error, size_t before);

/* Reports an array that is no batch of that schema. */
uint32_t yk_check_batch(const struct ArrowSchema *schema, const struct ArrowArray *batch, struct yk_error *error);

/* What to do with the answers of each batch, given its first row. */
typedef uint32_t yk_each_batch(void *to, struct yk_answers *answers, size_t start, size_t rows);

/* Runs columns a batch at a time; if they are few or cannot be cut, in one call, which reports
 * the latter. */
uint32_t yk_run_batches(const struct yk_expression *expression, const struct yk_column *columns, size_t count, size_t rows, yk_each_batch *each,
    void *to, struct yk_error *error);

struct ArrowArray yk_child_of(const struct ArrowArray *batch, int64_t child);

#pragma GCC visibility pop

#endif
