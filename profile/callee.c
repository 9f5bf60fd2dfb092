/*
 * Where a call of more than 255 arguments begins. Its place in the tree has the first mark of the call, and the brackets with which a call may
 * begin have none: so the calls of the text are gone through, by its tokens.
 */
#include "profile.h"

enum { MOST_ARGUMENTS = 255, NO_PAIR = TEXT_LIMIT };

/* The tokens of the text, and of each bracket the other one. */
static struct token tokens[TEXT_LIMIT];
static size_t pairs[TEXT_LIMIT];
static size_t count;

/* Whether the token of an index is of a kind. */
static int is_kind(size_t index, uint32_t kind) {
    return index < count && tokens[index].kind == kind;
}

/* Finds the tokens of a text that is a script, and pairs its brackets. */
static void find_tokens(const uint8_t *text, size_t length) {
    static size_t open[TEXT_LIMIT];
    size_t depth = 0;
    struct token t = next_token(text, length, 0);
    for (count = 0; t.kind != MONKEY_TOKEN_ENDED && count < TEXT_LIMIT; t = next_token(text, length, t.end)) {
        tokens[count] = t;
        pairs[count] = NO_PAIR;
        if (t.kind >= MONKEY_TOKEN_OPEN_BRACE && t.kind <= MONKEY_TOKEN_OPEN_BRACKET) {
            open[depth++] = count;
        } else if (t.kind >= MONKEY_TOKEN_CLOSE_PAREN && t.kind <= MONKEY_TOKEN_CLOSE_BRACE && depth > 0) {
            pairs[count] = open[--depth];
            pairs[open[depth]] = count;
        }
        count++;
    }
}

/* Whether an expression may end with the token of an index, so that a bracket behind goes on with it. */
static int ends_expression(size_t index) {
    if (index >= count) {
        return 0;
    }
    uint32_t kind = tokens[index].kind;
    return (kind >= MONKEY_TOKEN_NAME && kind <= MONKEY_TOKEN_FALSE) || (kind >= MONKEY_TOKEN_CLOSE_PAREN && kind <= MONKEY_TOKEN_CLOSE_BRACE);
}

/* Whether the bracket of an index calls or indexes what is before it. */
static int goes_on(size_t open) {
    return !is_kind(open, MONKEY_TOKEN_OPEN_BRACE) && open > 0 && ends_expression(open - 1);
}

/* The first token of what ends in the block that opens at an index: of an if, of a function, or of a hash, which is no block. */
static size_t block_start(size_t open) {
    if (open > 1 && is_kind(open - 1, MONKEY_TOKEN_ELSE)) {
        open = pairs[open - 2]; /* the block before else */
    }
    size_t head = open > 0 && is_kind(open - 1, MONKEY_TOKEN_CLOSE_PAREN) ? pairs[open - 1] : 0;
    return head > 0 && (is_kind(head - 1, MONKEY_TOKEN_IF) || is_kind(head - 1, MONKEY_TOKEN_FN)) ? head - 1 : open;
}

/* The first token of the expression without operators that ends with the token of an index. */
static size_t expression_start(size_t last) {
    while (last < count && pairs[last] != NO_PAIR) {
        size_t open = pairs[last];
        if (!goes_on(open)) {
            return is_kind(open, MONKEY_TOKEN_OPEN_BRACE) ? block_start(open) : open;
        }
        last = open - 1;
    }
    return last;
}

/* Whether the bracket of an index calls, and how many arguments it has is above the limit. */
static int calls_too_many(size_t open) {
    size_t commas = 0;
    if (!is_kind(open, MONKEY_TOKEN_OPEN_PAREN) || pairs[open] == NO_PAIR || !goes_on(open)) {
        return 0;
    }
    for (size_t k = open + 1; k < pairs[open]; k++) {
        commas += (size_t)is_kind(k, MONKEY_TOKEN_COMMA);
        k = pairs[k] != NO_PAIR ? pairs[k] : k; /* behind inner brackets */
    }
    return commas >= MOST_ARGUMENTS;
}

/* The first mark of the text at or behind a token: a word of the language but else, a name, an integer, a string. */
static size_t mark_from(size_t index) {
    while (index < count && tokens[index].kind > MONKEY_TOKEN_FN) {
        index++;
    }
    return index < count ? tokens[index].at : TEXT_LIMIT;
}

/* Where the call of too many arguments begins whose first mark is at a place; that place, if there is no such call. */
size_t call_place(const uint8_t *text, size_t length, size_t mark) {
    find_tokens(text, length);
    for (size_t k = 1; k < count; k++) {
        size_t start = calls_too_many(k) ? expression_start(k - 1) : count;
        if (start < count && mark_from(start) == mark) {
            return tokens[start].at;
        }
    }
    return mark;
}
