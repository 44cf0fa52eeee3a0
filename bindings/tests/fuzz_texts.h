/* Texts from the fuzzer's bytes: the bytes themselves, and texts that are expressions, or
 * nearly. */
#ifndef FUZZ_TEXTS_H
#define FUZZ_TEXTS_H

#include "yurkije_arrow.h"

#include <string.h>

/* The bytes of one input, consumed from the start. */
struct given {
    const uint8_t *at;
    size_t left;
};

static unsigned next(struct given *given) {
    if (given->left == 0)
        return 0;
    given->left--;
    return *given->at++;
}

static unsigned below(struct given *given, unsigned bound) { return bound ? next(given) % bound : 0; }

/* Tokens for texts: most of them have a meaning. */
static const char *const tokens[] = {
    "c0",
    "c1",
    "c2",
    "c3",
    "\"c1\"",
    "7",
    "-3",
    "0",
    "'a'",
    "'%b_'",
    "true",
    "false",
    "null",
    "null::i64?",
    "5::u8",
    "and",
    "or",
    "not",
    "is null",
    "is not null",
    "+",
    "-",
    "*",
    "/",
    "<",
    "<=",
    ">",
    ">=",
    "=",
    "<>",
    "(",
    ")",
    "between 1 and 3",
    "like 'a%'",
    "ilike '%B'",
    "like c1",
    ",",
    "as x",
    "as \"a y\"",
    "cast(c0 as bool?)",
    "escape '!'",
    "--",
    "\n",
    "''''",
    "9223372036854775807",
    "c0 < c1",
    "c0 + c1",
    "c2 like '%'",
    "not like '_'",
    "::",
    "::utf8?",
    "c0 is null",
    "c0 / c1",
    "2 * c0",
    "c0 between c1 and c2",
};

/* A text that is being written, over these fields. */
struct writing {
    char *text;
    size_t length, room;
    const struct yk_field *fields;
    size_t count;
};

static void write_words(struct writing *to, const char *words) {
    size_t more = strlen(words);
    if (to->length + more + 1 > to->room)
        return;
    memcpy(to->text + to->length, words, more);
    to->length += more;
    to->text[to->length++] = ' ';
}

/* Any tokens, and now and then a byte of the input. */
static void write_tokens(struct given *given, struct writing *to) {
    for (unsigned count = 1 + below(given, 12); count > 0; count--) {
        char byte[2] = {(char)next(given), 0};
        write_words(to, next(given) % 64 == 0 ? byte : tokens[below(given, sizeof tokens / sizeof *tokens)]);
    }
}

/* The bytes of the input, unchanged. */
static void write_bytes(struct given *given, struct writing *to) {
    size_t most = next(given) + next(given);
    while (given->left > 0 && most-- > 0 && to->length < to->room)
        to->text[to->length++] = (char)next(given);
}

enum shape { is_truth, is_number, is_text };

static enum shape shape_of(uint32_t kind) { return kind == YK_BOOL ? is_truth : kind <= YK_U64 ? is_number : is_text; }

/* A column of that shape, or a literal. */
static void write_atom(struct given *given, struct writing *to, enum shape shape) {
    static const char *const literals[][4] = {
        {"true", "false", "null::bool?", "c0"}, {"3", "0", "-1", "100"}, {"'a'", "''", "'%b_'", "null::utf8?"}};
    for (unsigned tries = 0, at = next(given); tries < to->count; tries++, at++)
        if (shape_of(to->fields[at % to->count].kind) == shape && next(given) % 4) {
            write_words(to, (const char *const[]){"c0", "c1", "c2", "c3"}[at % to->count]);
            return;
        }
    write_words(to, literals[shape][below(given, 4)]);
}

/* A correct and mostly well typed expression: an operator between two sums or atoms, in
 * brackets, joined by and and or. */
static void write_number(struct given *given, struct writing *to) {
    static const char *const signs[] = {"+", "-", "*", "/"};
    write_atom(given, to, is_number);
    for (unsigned more = below(given, 3); more > 0; more--) {
        write_words(to, signs[below(given, 4)]);
        write_atom(given, to, is_number);
    }
}

static void write_comparison(struct given *given, struct writing *to) {
    static const char *const signs[] = {"<", "<=", ">", ">=", "=", "<>"}, *const likes[] = {
                                                                              "like", "not like", "ilike", "<", "=", "is null or not"};
    unsigned form = below(given, 6);
    if (form < 2) {
        write_number(given, to);
        write_words(to, signs[below(given, 6)]);
        write_number(given, to);
    } else if (form == 2) {
        write_number(given, to);
        write_words(to, next(given) & 1 ? "between" : "not between");
        write_number(given, to);
        write_words(to, "and");
        write_number(given, to);
    } else if (form == 3) {
        write_atom(given, to, is_text);
        write_words(to, likes[below(given, 5)]);
        write_atom(given, to, is_text);
    } else {
        write_atom(given, to, (enum shape)below(given, 3));
        write_words(to, form == 4 ? "is null" : "is not null");
    }
}

static void write_answers(struct given *given, struct writing *to) {
    static const char *const joins[] = {"and", "or", "and not", ", ", "or not"};
    for (unsigned more = below(given, 5);; more--) {
        if (next(given) % 4 == 0)
            write_number(given, to);
        else
            write_comparison(given, to);
        if (more == 0)
            return;
        write_words(to, joins[below(given, 5)]);
    }
}

#endif
