/* Hand-written C for the work of `run`: rows of `i64?,i64?,utf8` in CSV from standard input, and
   for each of them whether `a + b < 100 and s like '%nitr%'`, to standard output. Like the
   program that it is compared with it reads fields in quotes, distinguishes an empty field from
   an empty text, and ends with 1 if a row has another width, a number does not fit or overflows,
   a quote is not closed, or a text is no UTF-8. It knows its columns and its expression. */
#define _GNU_SOURCE
#include <stdint.h>
#include <stdlib.h>
#include <string.h>
#include <unistd.h>

enum { READ = 1 << 16, WRITTEN = 1 << 16 };

static unsigned char *kept;            /* bytes read and not processed yet: `length` of `room` */
static size_t length, room;
static char out[WRITTEN + 64];
static size_t filled;

static void flush(void) {
    for (size_t k = 0; k < filled;) {
        ssize_t n = write(1, out + k, filled - k);
        if (n <= 0) exit(3);
        k += (size_t)n;
    }
    filled = 0;
}

static void put(const char *text, size_t n) {
    memcpy(out + filled, text, n);
    filled += n;
    if (filled >= WRITTEN) flush();
}

/* whole numbers in decimal digits; eight at a time if there are so many */
static int number(const unsigned char *p, size_t n, int64_t *value) {
    int minus = n && *p == '-';
    p += minus;
    n -= (size_t)minus;
    if (n == 0 || n > 19) return 0;
    uint64_t sum = 0;
    for (; n >= 8; p += 8, n -= 8) {
        uint64_t w;
        memcpy(&w, p, 8);
        if (((w & 0xF0F0F0F0F0F0F0F0) != 0x3030303030303030) || (((w + 0x0606060606060606) & 0xF0F0F0F0F0F0F0F0) != 0x3030303030303030)) return 0;
        w -= 0x3030303030303030;
        w = (w * 10 + (w >> 8)) & 0x00FF00FF00FF00FF;
        w = (w * 100 + (w >> 16)) & 0x0000FFFF0000FFFF;
        w = (w * 10000 + (w >> 32)) & 0xFFFFFFFF;
        sum = sum * 100000000 + w;
    }
    for (; n; p++, n--) {
        unsigned digit = (unsigned)*p - '0';
        if (digit > 9) return 0;
        sum = sum * 10 + digit;
    }
    if (sum > (uint64_t)INT64_MAX + (uint64_t)minus) return 0;
    *value = minus ? (int64_t)(0 - sum) : (int64_t)sum;
    return 1;
}

static int is_text(const unsigned char *p, size_t n) {
    size_t i = 0;
    for (; i + 8 <= n; i += 8) {
        uint64_t w;
        memcpy(&w, p + i, 8);
        if (w & 0x8080808080808080) break;
    }
    while (i < n) {
        unsigned char c = p[i];
        size_t more = c < 0x80 ? 0 : c >= 0xC2 && c < 0xE0 ? 1 : c >= 0xE0 && c < 0xF0 ? 2 : c >= 0xF0 && c < 0xF5 ? 3 : 9;
        if (more == 9 || i + more >= n) return 0;
        for (size_t k = 1; k <= more; k++)
            if ((p[i + k] & 0xC0) != 0x80) return 0;
        if ((c == 0xE0 && p[i + 1] < 0xA0) || (c == 0xED && p[i + 1] > 0x9F) || (c == 0xF0 && p[i + 1] < 0x90) || (c == 0xF4 && p[i + 1] > 0x8F)) return 0;
        i += more + 1;
    }
    return 1;
}

struct field { unsigned char *start; size_t n; int quoted, doubled; };

/* One record from a position on: its three fields. Returns the position after it, or NULL if it
   is incomplete; ends the program if it is no row. */
static unsigned char *record(unsigned char *p, unsigned char *end, int ended, struct field f[3]) {
    for (int k = 0;; k++) {
        if (k == 3) exit(1);
        unsigned char *start = p;
        f[k] = (struct field){start, 0, p < end && *p == '"', 0};
        if (f[k].quoted) {
            for (p = ++start;; p++) {
                if (!(p = memchr(p, '"', (size_t)(end - p)))) { if (ended) exit(1); return NULL; }
                if (p + 1 == end && !ended) return NULL;
                if (p + 1 == end || p[1] != '"') break;
                f[k].doubled = 1;
                p++;
            }
            f[k].start = start;
            f[k].n = (size_t)(p++ - start);
        } else {
            while (p < end && *p != ',' && *p != '\n') p++;
            f[k].n = (size_t)(p - start);
        }
        if (p == end) { if (!ended) return NULL; if (k != 2) exit(1); return p; }
        if (*p++ == '\n') { if (k != 2) exit(1); return p; }
    }
}

/* Removes the second of two quotes that are one, in place. */
static void undouble(struct field *f) {
    unsigned char *to = f->start;
    for (size_t i = 0; i < f->n; i++) {
        *to++ = f->start[i];
        if (f->start[i] == '"') i++;
    }
    f->n = (size_t)(to - f->start);
}

static void answer(struct field f[3]) {
    int64_t a = 0, b = 0, sum;
    for (int k = 0; k < 3; k++)
        if (f[k].doubled) undouble(&f[k]);
    int null_a = !f[0].n && !f[0].quoted, null_b = !f[1].n && !f[1].quoted;
    if (!null_a && !number(f[0].start, f[0].n, &a)) exit(1);
    if (!null_b && !number(f[1].start, f[1].n, &b)) exit(1);
    if ((!f[2].n && !f[2].quoted) || !is_text(f[2].start, f[2].n)) exit(1);
    if (__builtin_add_overflow(a, b, &sum)) exit(1);
    int has = memmem(f[2].start, f[2].n, "nitr", 4) != NULL, unknown = null_a || null_b;
    if (!has || (!unknown && sum >= 100)) put("false\n", 6);
    else if (unknown) put("\n", 1);
    else put("true\n", 5);
}

int main(void) {
    int header = 1, ended = 0;
    room = READ;
    kept = malloc(room);
    if (!kept) return 3;
    while (!ended) {
        if (length == room) {
            room *= 2;
            if (!(kept = realloc(kept, room))) return 3;
        }
        ssize_t n = read(0, kept + length, room - length);
        if (n < 0) return 3;
        ended = n == 0;
        length += (size_t)n;
        unsigned char *p = kept, *end = kept + length, *behind;
        struct field f[3];
        while (p < end && (behind = record(p, end, ended, f))) {
            if (header) { header = 0; put("wanted\n", 7); }
            else answer(f);
            p = behind;
        }
        length -= (size_t)(p - kept);
        memmove(kept, p, length);
    }
    flush();
    return 0;
}
