/* Dates, timestamps and decimals as texts. */
#include "yurkije_sqlite.h"

#include <string.h>

static const int64_t microseconds_of_day = INT64_C(86400000000);

/* Days from 1970-01-01 on of a day of the Gregorian calendar. */
static int64_t days_of(int64_t year, int64_t month, int64_t day) {
    year -= month <= 2;
    int64_t of_march = (153 * (month + (month > 2 ? -3 : 9)) + 2) / 5 + day - 1;
    return 365 * year + year / 4 - year / 100 + year / 400 + of_march - 719468;
}

static int days_in(int64_t year, int64_t month) {
    static const int days[] = {31, 28, 31, 30, 31, 30, 31, 31, 30, 31, 30, 31};
    return days[month - 1] + (month == 2 && year % 4 == 0 && (year % 100 != 0 || year % 400 == 0));
}

/* Reads a number of exactly so many digits, and the character behind it, unless that is 0. NULL if they are not there. */
static const char *read_part(const char *at, int digits, char behind, int64_t *number) {
    *number = 0;
    for (; at && digits > 0; at++, digits--) {
        if (*at < '0' || *at > '9')
            return NULL;
        *number = 10 * *number + (*at - '0');
    }
    if (!at || (behind && *at != behind))
        return NULL;
    return at + (behind != 0);
}

static const char *read_date(const char *at, int64_t *days) {
    int64_t year, month, day;
    at = read_part(at, 4, '-', &year);
    at = read_part(at, 2, '-', &month);
    at = read_part(at, 2, 0, &day);
    if (!at || year < 1 || month < 1 || month > 12 || day < 1 || day > days_in(year, month))
        return NULL;
    *days = days_of(year, month, day);
    return at;
}

/* Reads the digits behind a point, of which those after so many are zeros, as a number of the last of them. */
static const char *read_places(const char *at, uint32_t most, int64_t *number) {
    uint32_t digits = 0;
    for (*number = 0; *at >= '0' && *at <= '9'; at++, digits++) {
        if (digits >= most && *at != '0')
            return NULL;
        if (digits < most)
            *number = 10 * *number + (*at - '0');
    }
    for (uint32_t i = digits; i < most; i++)
        *number *= 10;
    return digits > 0 ? at : NULL;
}

static bool read_timestamp(const char *at, int64_t *number) {
    int64_t days, hour, minute, second, rest = 0;
    at = read_date(at, &days);
    if (!at || (*at != ' ' && *at != 'T'))
        return false;
    at = read_part(at + 1, 2, ':', &hour);
    at = read_part(at, 2, ':', &minute);
    at = read_part(at, 2, 0, &second);
    if (at && *at == '.')
        at = read_places(at + 1, 6, &rest);
    if (!at || *at || hour > 23 || minute > 59 || second > 59)
        return false;
    *number = days * microseconds_of_day + ((hour * 60 + minute) * 60 + second) * 1000000 + rest;
    return true;
}

static bool read_decimal(uint32_t kind, const char *at, int64_t *number) {
    uint32_t places = YK_DECIMAL_SCALE(kind), most = YK_DECIMAL_PRECISION(kind) - places;
    bool is_negative = *at == '-';
    int64_t whole = 0, rest = 0;
    at += *at == '-' || *at == '+';
    const char *first = at;
    while (*at == '0')
        at++;
    const char *digits = at;
    for (; *at >= '0' && *at <= '9'; at++) {
        if (at - digits >= (int)most)
            return false;
        whole = 10 * whole + (*at - '0');
    }
    bool has_digits = at > first;
    if (*at == '.' && (at[1] || !has_digits))
        at = read_places(at + 1, places, &rest);
    else
        at += *at == '.';
    if (!at || (!has_digits && at == first) || *at)
        return false;
    for (uint32_t i = 0; i < places; i++)
        whole *= 10;
    *number = is_negative ? -(whole + rest) : whole + rest;
    return true;
}

bool read_written(uint32_t kind, const char *text, int64_t *number) {
    if (kind == YK_TIMESTAMP)
        return read_timestamp(text, number);
    if (kind != YK_DATE)
        return read_decimal(kind, text, number);
    const char *end = read_date(text, number);
    return end && *end == 0;
}

/* The day of the Gregorian calendar of so many days from 1970-01-01 on, in a year from 1 to 9999. */
static bool write_date(int64_t days, char *room) {
    if (days < days_of(1, 1, 1) || days > days_of(9999, 12, 31))
        return false;
    int64_t shifted = days + 719468, era = shifted / 146097, of_era = shifted % 146097;
    int64_t year = (of_era - of_era / 1460 + of_era / 36524 - of_era / 146096) / 365,
            of_year = of_era - (365 * year + year / 4 - year / 100);
    int64_t month = (5 * of_year + 2) / 153, day = of_year - (153 * month + 2) / 5 + 1;
    month += month < 10 ? 3 : -9;
    snprintf(room, 40, "%04d-%02d-%02d", (int)(year + era * 400 + (month <= 2)), (int)month, (int)day);
    return true;
}

static bool write_timestamp(int64_t number, char *room) {
    int64_t days = number / microseconds_of_day - (number % microseconds_of_day < 0), rest = number - days * microseconds_of_day;
    if (!write_date(days, room))
        return false;
    int second = (int)(rest / 1000000), part = (int)(rest % 1000000);
    int length = snprintf(room + 10, 30, " %02d:%02d:%02d", second / 3600, second / 60 % 60, second % 60);
    if (part)
        snprintf(room + 10 + length, 30 - (size_t)length, ".%06d", part);
    return true;
}

bool write_number(uint32_t kind, int64_t number, char *room) {
    if (kind == YK_DATE)
        return write_date(number, room);
    if (kind == YK_TIMESTAMP)
        return write_timestamp(number, room);
    char digits[30];
    int places = (int)YK_DECIMAL_SCALE(kind);
    uint64_t magnitude = number < 0 ? -(uint64_t)number : (uint64_t)number;
    int length = snprintf(digits, sizeof digits, "%0*llu", places + 1, (unsigned long long)magnitude);
    snprintf(room, 40, "%s%.*s%s%s", number < 0 ? "-" : "", length - places, digits, places ? "." : "", digits + length - places);
    return true;
}
