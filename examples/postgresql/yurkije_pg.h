/* Values of PostgreSQL as Arrow has them, and back. */
#include "postgres.h"

#include <yurkije_arrow.h>

/* What a column is read as whose type is not taken: as nothing, or as byte strings or truth values, of which only the validity is used. */
extern const char unknown_format[];

/* Arrow's format of a type of PostgreSQL. */
const char *format_of(Oid type, int32 modifier);

/* A value that is no text, as the library stores it: a number, or the bits of a float. Ends the query if it has none. */
int64 number_of(uint32_t kind, Datum value);

/* Values of answers, as PostgreSQL writes them. */
text *write_date(int32_t days);
text *write_timestamp(int64_t microseconds);
text *write_decimal(int64_t units, int scale);
