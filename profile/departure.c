/*
 * Where a script departs from another whose tree has another shape, and why, in words. The shapes are the library's; where they part is
 * found here: the fields of both are read side by side up to the first that differs, and from the mark in the text before it the first
 * token that differs is searched.
 */
#include <stdio.h>
#include <string.h>

#include "script.h"

enum { MOST_TOKENS = 8192, MOST_LEVELS = 64, FUNCTION = 0x24 };

/* The tokens of a text, behind the last an empty one at its end, and the one that is looked at. */
struct row {
    const struct script *script;
    struct token tokens[MOST_TOKENS + 1];
    size_t count, at;
};

/* A reading of a tree field by field: where it stands, and the ends of the fields that are open. */
struct reading {
    const uint8_t *tree;
    size_t length, at, level, ends[MOST_LEVELS + 1];
};

/* A number of two bytes. */
static size_t two_bytes(const uint8_t *at) {
    return at[0] * (size_t)256 + at[1];
}

/* Closes the fields that end where the reading stands; whether a field is left. */
static int is_left(struct reading *r) {
    while (r->level > 0 && r->ends[r->level - 1] == r->at) {
        r->level--;
    }
    return r->at < r->length;
}

/* Goes into the field at which the reading stands, or behind one that has no fields. */
static void pass_field(struct reading *r) {
    const uint8_t *field = r->tree + r->at;
    size_t length = two_bytes(field + 1);
    if (has_fields(*field)) {
        r->ends[r->level++] = r->at + 3 + length;
    }
    r->at += 3 + (has_fields(*field) ? 0 : length);
}

/* Whether the fields at which two readings stand begin alike: in level and tag and, where they have no fields, in length and content. */
static int begin_alike(const struct reading *one, const struct reading *other) {
    const uint8_t *left = one->tree + one->at, *right = other->tree + other->at;
    size_t length = two_bytes(left + 1);
    return one->level == other->level && *left == *right &&
           (has_fields(*left) || (length == two_bytes(right + 1) && memcmp(left + 3, right + 3, length) == 0));
}

/* Begins the reading of a shape. */
static struct reading begin_reading(const struct shaped *s) {
    struct reading r = {s->shape, s->length, 0, 0, {0}};
    return r;
}

/* Goes on in both to the first field that differs, or to an end; how many marks of the texts belong to those before it. */
static size_t find_field(struct reading *one, struct reading *other) {
    size_t marks = 0;
    int own_name = 0;
    while (is_left(one) && is_left(other) && begin_alike(one, other)) {
        uint8_t tag = one->tree[one->at];
        marks += is_mark(tag) && !own_name;
        own_name = tag == FUNCTION;
        pass_field(one);
        pass_field(other);
    }
    return marks;
}

/* The offset of the first field of a tree that differs from another's; the tree's length, if all in it are those of the other. */
size_t field_that_differs(const struct shaped *here, const struct shaped *there) {
    struct reading one = begin_reading(here), other = begin_reading(there);
    find_field(&one, &other);
    return one.at;
}

/* Lists the tokens of a script. */
static void list_tokens(struct row *r, const struct script *script) {
    r->script = script;
    r->count = r->at = 0;
    struct token t = next_token(script->bytes, script->length, 0);
    for (; t.kind != MONKEY_TOKEN_ENDED && r->count < MOST_TOKENS; t = next_token(script->bytes, script->length, t.end)) {
        r->tokens[r->count++] = t;
    }
    r->tokens[r->count] = (struct token){t.at, t.at, MONKEY_TOKEN_ENDED};
}

/* Goes behind so many marks. */
static void pass_marks(struct row *r, size_t marks) {
    for (r->at = 0; marks > 0 && r->at < r->count; r->at++) {
        marks -= r->tokens[r->at].kind <= MONKEY_TOKEN_FN;
    }
}

/* The kind of the token so many behind the one that is looked at; there is none before the first. */
static uint32_t kind_at(const struct row *r, int behind) {
    size_t at = r->at + (size_t)behind;
    return at < r->count ? r->tokens[at].kind : MONKEY_TOKEN_ENDED;
}

/* The bytes of a token. */
static const uint8_t *token_bytes(const struct row *r, size_t at) {
    return r->script->bytes + r->tokens[at].at;
}

/* How many bytes a token has. */
static size_t token_length(const struct row *r, size_t at) {
    return r->tokens[at].end - r->tokens[at].at;
}

/* Whether two tokens have the same bytes. */
static int same_token(const struct row *one, size_t at, const struct row *other, size_t there) {
    size_t length = token_length(one, at);
    return length == token_length(other, there) && memcmp(token_bytes(one, at), token_bytes(other, there), length) == 0;
}

/* Whether the tokens that are looked at differ in nothing but a literal's value. */
static int are_alike(const struct row *one, const struct row *other) {
    uint32_t kind = kind_at(one, 0), there = kind_at(other, 0);
    if ((kind == MONKEY_TOKEN_TRUE || kind == MONKEY_TOKEN_FALSE) && (there == MONKEY_TOKEN_TRUE || there == MONKEY_TOKEN_FALSE)) {
        return 1;
    }
    if (kind != there || kind == MONKEY_TOKEN_INTEGER) {
        return kind == there;
    }
    if (kind == MONKEY_TOKEN_STRING) {
        return token_length(one, one->at) == token_length(other, other->at);
    }
    return same_token(one, one->at, other, other->at);
}

/* Goes on in both to the first tokens that are not alike; whether there are any. */
static int find_tokens(struct row *one, struct row *other) {
    while (are_alike(one, other)) {
        if (kind_at(one, 0) == MONKEY_TOKEN_ENDED) {
            return 0;
        }
        one->at++;
        other->at++;
    }
    return 1;
}

/* Writes the token at a place as it is shown, a long one cut. */
static const char *token_text(char *text, size_t room, const struct row *r, size_t at) {
    size_t length = at < r->count ? token_length(r, at) : 0;
    if (length == 0) {
        snprintf(text, room, "its end");
        return text;
    }
    char bytes[40];
    size_t kept = length < sizeof bytes ? length : sizeof bytes - 3;
    while (kept > 0 && kept < length && (token_bytes(r, at)[kept] & 0xc0) == 0x80) {
        kept--;
    }
    memcpy(bytes, token_bytes(r, at), kept);
    strcpy(bytes + kept, "");
    snprintf(text, room, "'%s%s'", shown(bytes), kept < length ? ".." : "");
    return text;
}

/* Whether a `let` of the name at a place stands in another row, from where that is on. */
static int is_defined_later(const struct row *r, size_t at, const struct row *other) {
    for (size_t k = other->at; k + 1 < other->count; k++) {
        if (other->tokens[k].kind == MONKEY_TOKEN_LET && same_token(r, at, other, k + 1)) {
            return 1;
        }
    }
    return 0;
}

/* Says what is behind a `let` of one script that the other does not have. */
static void explain_let(char *reason, size_t room, const char *what, const struct row *r, size_t at) {
    char name[128];
    snprintf(reason, room, "%s let %s: each preset keeps every let, and what is not used is switched off by a value", what,
             token_text(name, sizeof name, r, at));
}

/* A `let` that one of the two does not have; whether it is that. */
static int is_let(char *reason, size_t room, const struct row *one, const struct row *other) {
    int lets = kind_at(one, 0) == MONKEY_TOKEN_LET, there = kind_at(other, 0) == MONKEY_TOKEN_LET;
    if (lets != there) {
        const struct row *r = lets ? one : other;
        explain_let(reason, room, lets ? "one more" : "there is no", r, r->at + 1);
        return 1;
    }
    int names = one->at > 0 && other->at > 0 && kind_at(one, -1) == MONKEY_TOKEN_LET && kind_at(other, -1) == MONKEY_TOKEN_LET;
    if (names && is_defined_later(one, one->at, other)) {
        explain_let(reason, room, "there is no", other, other->at);
        return 1;
    }
    if (names && is_defined_later(other, other->at, one)) {
        explain_let(reason, room, "one more", one, one->at);
        return 1;
    }
    return 0;
}

/* Whether a minus and an integer are looked at. */
static int is_signed(const struct row *r) {
    return kind_at(r, 0) == MONKEY_TOKEN_MINUS && kind_at(r, 1) == MONKEY_TOKEN_INTEGER;
}

/* A number with a minus in one of the two; whether it is that. */
static int is_minus(char *reason, size_t room, const struct row *one, const struct row *other) {
    int here = is_signed(one) && kind_at(other, 0) == MONKEY_TOKEN_INTEGER;
    int there = is_signed(other) && kind_at(one, 0) == MONKEY_TOKEN_INTEGER;
    if (!here && !there) {
        return 0;
    }
    const struct row *signed_row = here ? one : other;
    int length = (int)token_length(signed_row, signed_row->at + 1);
    snprintf(reason, room, "-%.*s is an operator and an integer, where %s has an integer alone: give all of them the minus, or none",
             length > 40 ? 40 : length, (const char *)token_bytes(signed_row, signed_row->at + 1), here ? "the other" : "this");
    return 1;
}

/* Says why two scripts part where both rows stand. */
static void explain(char *reason, size_t room, const struct row *one, const struct row *other) {
    char here[128], there[128];
    uint32_t kind = kind_at(one, 0);
    if (is_minus(reason, room, one, other) || is_let(reason, room, one, other)) {
        return;
    }
    if (kind == MONKEY_TOKEN_STRING && kind_at(other, 0) == kind) {
        snprintf(reason, room, "a string of %zu bytes, where the other has one of %zu: pad strings to one length",
                 token_length(one, one->at) - 2, token_length(other, other->at) - 2);
        return;
    }
    token_text(here, sizeof here, one, one->at);
    token_text(there, sizeof there, other, other->at);
    if (kind == MONKEY_TOKEN_NAME && kind_at(other, 0) == kind) {
        snprintf(reason, room, "the name %s, where the other has %s: names are part of the shape", here, there);
    } else {
        snprintf(reason, room, "%s, where the other has %s", here, there);
    }
}

/* Finds where a script departs from another of a different shape, and why: `m` gets the place and the reason, `other` its place. */
void find_departure(struct message *m, const struct shaped *here, struct message *other, const struct shaped *there) {
    static struct row one, two;
    struct reading left = begin_reading(here), right = begin_reading(there);
    list_tokens(&one, here->script);
    list_tokens(&two, there->script);
    size_t marks = find_field(&left, &right);
    pass_marks(&one, marks);
    pass_marks(&two, marks);
    if (!find_tokens(&one, &two)) {
        one.at = two.at = 0;
        find_tokens(&one, &two);
    }
    m->place = one.tokens[one.at].at;
    other->place = two.tokens[two.at].at;
    explain(m->reason, sizeof m->reason, &one, &two);
}
