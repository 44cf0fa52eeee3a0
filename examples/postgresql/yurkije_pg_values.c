/* Values of PostgreSQL as Arrow has them, and back. */
#include "yurkije_pg.h"

#include "catalog/pg_type.h"
#include "datatype/timestamp.h"
#include "utils/builtins.h"
#include "utils/date.h"
#include "utils/numeric.h"
#include "utils/timestamp.h"

/* From PostgreSQL's epoch, 2000-01-01, to that of Arrow, 1970-01-01. */
enum { epoch_days = POSTGRES_EPOCH_JDATE - UNIX_EPOCH_JDATE };
static const int64 epoch_microseconds = epoch_days * USECS_PER_DAY;

const char unknown_format[] = "?";

/* Arrow's format of numeric(p,s), of at most 18 digits. */
static const char *format_of_numeric(int32 modifier) {
    int digits = (modifier - VARHDRSZ) >> 16 & 0xffff, scale = (((modifier - VARHDRSZ) & 0x7ff) ^ 1024) - 1024;
    if (modifier < VARHDRSZ || digits > 18 || scale < 0 || scale > digits)
        return unknown_format;
    return psprintf("d:%d,%d", digits, scale);
}

/* Arrow's format of a type of PostgreSQL. */
const char *format_of(Oid type, int32 modifier) {
    switch (type) {
    case BOOLOID: return "b";
    case INT2OID: return "s";
    case INT4OID: return "i";
    case INT8OID: return "l";
    case FLOAT4OID: return "f";
    case FLOAT8OID: return "g";
    case NUMERICOID: return format_of_numeric(modifier);
    case DATEOID: return "tdD";
    case TIMESTAMPOID: return "tsu:";
    case TEXTOID:
    case VARCHAROID: return "u";
    case BYTEAOID: return "z";
    default: return unknown_format;
    }
}

static void refuse_value(const char *words) {
    ereport(ERROR, (errcode(ERRCODE_DATETIME_VALUE_OUT_OF_RANGE), errmsg("yurkije: %s", words)));
}

/* A decimal as a whole number of its last place. A numeric(p,s) has no more digits than its column tells. */
static int64 units_of(Datum value, uint32_t scale) {
    const char *text = DatumGetCString(DirectFunctionCall1(numeric_out, value)), *at = text + (*text == '-');
    int64 units = 0;
    uint32_t places = 0;
    bool is_behind = false;
    for (; (*at >= '0' && *at <= '9') || *at == '.'; at++) {
        if (*at != '.')
            units = 10 * units + (*at - '0'), places += is_behind;
        is_behind |= *at == '.';
    }
    if (*at)
        ereport(ERROR, (errcode(ERRCODE_NUMERIC_VALUE_OUT_OF_RANGE), errmsg("yurkije: %s of numeric is no decimal", text)));
    for (; places < scale; places++)
        units *= 10;
    return *text == '-' ? -units : units;
}

static int64 days_of(Datum value) {
    DateADT date = DatumGetDateADT(value);
    if (DATE_NOT_FINITE(date))
        refuse_value("an infinite date is no day");
    return (int64)date + epoch_days;
}

static int64 microseconds_of(Datum value) {
    int64 made = DatumGetTimestamp(value);
    if (TIMESTAMP_NOT_FINITE(made))
        refuse_value("an infinite timestamp is no time");
    if (__builtin_add_overflow(made, epoch_microseconds, &made))
        refuse_value("64 bits do not hold the microseconds from 1970 on");
    return made;
}

/* A value that is no text, as the library stores it. */
int64 number_of(uint32_t kind, Datum value) {
    switch (kind % 256) {
    case YK_DATE: return days_of(value);
    case YK_TIMESTAMP: return microseconds_of(value);
    case YK_DECIMAL64: return units_of(value, YK_DECIMAL_SCALE(kind));
    default: return (int64)value;
    }
}

/* A day from 1970 on, as PostgreSQL writes dates. */
text *write_date(int32_t days) {
    int64 date = (int64)days - epoch_days;
    if (!IS_VALID_DATE(date))
        refuse_value("the answer is no date of PostgreSQL");
    return cstring_to_text(DatumGetCString(DirectFunctionCall1(date_out, DateADTGetDatum((DateADT)date))));
}

text *write_timestamp(int64_t microseconds) {
    int64 time;
    if (__builtin_sub_overflow(microseconds, epoch_microseconds, &time) || !IS_VALID_TIMESTAMP(time))
        refuse_value("the answer is no timestamp of PostgreSQL");
    return cstring_to_text(DatumGetCString(DirectFunctionCall1(timestamp_out, TimestampGetDatum(time))));
}

text *write_decimal(int64_t units, int scale) {
    char digits[30];
    int length = snprintf(digits, sizeof digits, "%0*llu", scale + 1, (unsigned long long)(units < 0 ? -(uint64_t)units : (uint64_t)units));
    return cstring_to_text(psprintf("%s%.*s%s%s", units < 0 ? "-" : "", length - scale, digits, scale ? "." : "", digits + length - scale));
}
