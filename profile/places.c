/*
 * The tokens of a text, which the library finds, and where among them stands what is at an offset of its tree.
 *
 * Tree and text have the same marks in the same order: a Let and its name, Return, Identifier, If, Function, the names of its parameters,
 * Integer, Boolean and String in the tree; the words of the language but else, names, integers and strings in the text. A field has the
 * place of the first mark at or behind its offset.
 */
#include "profile.h"

/* Whether a field's content is fields. */
int has_fields(uint8_t tag) {
    return tag < 0x20 || (tag >= 0x21 && tag <= 0x25) || (tag >= 0x29 && tag <= 0x2c) || tag == 0x31;
}

/* Whether a field has a mark in the text. */
int is_mark(uint8_t tag) {
    return tag == 0x13 || tag == 0x14 || tag == 0x20 || tag == 0x23 || tag == 0x24 || (tag >= 0x26 && tag <= 0x28) || tag == 0x30;
}

/* Whether a byte is a digit. */
int is_digit(uint8_t b) {
    return b >= '0' && b <= '9';
}

/*
 * The token that is next from an offset of a text on; where there is none, an empty one at that offset, of the kind that ends a text. An
 * integer above the limit is one too: the library tells where it stands, and its digits where it ends.
 */
struct token next_token(const uint8_t *text, size_t length, size_t at) {
    uint32_t found[MONKEY_TOKEN_SIZE] = {0, 0, MONKEY_TOKEN_ENDED};
    struct token t = {at, at, MONKEY_TOKEN_ENDED};
    uint64_t answer = monkey_next_token(text, length, at, found, MONKEY_TOKEN_SIZE);
    if (monkey_number(answer) == MONKEY_LARGE_INTEGER) {
        t.kind = MONKEY_TOKEN_INTEGER;
        t.at = monkey_value(answer);
        t.end = t.at + 1;
        while (t.end < length && is_digit(text[t.end])) {
            t.end++;
        }
    } else if (found[2] != MONKEY_TOKEN_ENDED) {
        t.kind = found[2];
        t.at = found[0];
        t.end = t.at + found[1];
    }
    return t;
}

/* Goes on to the next token that is a mark: the kinds up to fn. */
static void next_mark(struct walk *w) {
    do {
        w->mark = next_token(w->text, w->text_length, w->mark.end);
    } while (w->mark.kind > MONKEY_TOKEN_FN && w->mark.kind != MONKEY_TOKEN_ENDED);
}

/* Begins a walk over a tree and the text that it was read from, both at their first mark. */
struct walk begin_walk(const uint8_t *tree, size_t tree_length, const uint8_t *text, size_t text_length) {
    struct walk w = {tree, text, tree_length, text_length, 0, 0, {0, 0, MONKEY_TOKEN_ENDED}};
    next_mark(&w);
    return w;
}

/*
 * Walks on to an offset of the tree, which is not before the last one: the offset in the text of what stands there; the text's length, if
 * nothing does. A function's own name, the field behind its head, has no mark.
 */
size_t place_in_text(struct walk *w, size_t offset) {
    while (w->at + 3 <= w->tree_length && w->at < offset) {
        const uint8_t *field = w->tree + w->at;
        if (is_mark(*field) && !w->own_name) {
            next_mark(w);
        }
        w->own_name = *field == 0x24;
        w->at += 3 + (has_fields(*field) ? 0 : (size_t)field[1] * 256 + field[2]);
    }
    return w->mark.kind == MONKEY_TOKEN_ENDED ? w->text_length : w->mark.at;
}
