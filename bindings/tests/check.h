/* Shared by the tests in C: checks that report where they failed, and parts of the interface in
 * few words. */
#ifndef CHECK_H
#define CHECK_H

#include "yurkije_arrow.h"

#include <stdio.h>
#include <stdlib.h>
#include <string.h>

static int faults;

#define CHECK(question)                                                                                                                    \
    do {                                                                                                                                   \
        if (!(question)) {                                                                                                                 \
            fprintf(stderr, "%s:%d: %s\n", __FILE__, __LINE__, #question);                                                                 \
            faults++;                                                                                                                      \
        }                                                                                                                                  \
    } while (0)

/* The two values, if a status or a count is not as expected. */
#define SAME(value, expected)                                                                                                              \
    do {                                                                                                                                   \
        long long got_ = (long long)(value), want_ = (long long)(expected);                                                                \
        if (got_ != want_) {                                                                                                               \
            fprintf(stderr, "%s:%d: %s is %lld, not %lld\n", __FILE__, __LINE__, #value, got_, want_);                                     \
            faults++;                                                                                                                      \
        }                                                                                                                                  \
    } while (0)

#define COUNT(array) (sizeof(array) / sizeof *(array))

static char message[300];

static inline struct yk_error new_error(void) {
    message[0] = 0;
    return (struct yk_error){.message = {message, sizeof message}};
}

static inline struct yk_text text_of(const char *words) { return (struct yk_text){words, strlen(words)}; }

static inline struct yk_field field(const char *name, uint32_t kind, bool nullable) {
    return (struct yk_field){text_of(name), kind, nullable};
}

static inline bool bit(const uint8_t *bits, size_t i) { return bits[i / 8] >> i % 8 & 1; }

/* Reads an expression that the test is not about. */
static inline struct yk_expression read_expression(const char *words, const struct yk_field *fields, size_t count) {
    struct yk_expression expression = {0};
    char told[300] = "";
    struct yk_error error = {.message = {told, sizeof told}};
    uint32_t status = yk_expression_new(words, strlen(words), fields, count, &expression, &error);
    if (status) {
        fprintf(stderr, "%s: refused, %u: %s\n", words, status, told);
        exit(2);
    }
    return expression;
}

#endif
