/*
 * How the names of a script were resolved, as names prints it.
 */
#include <stdio.h>
#include <stdlib.h>

#include "profile.h"

/* Prints the bytes of a name; those that do not print as \xHH. */
static void print_name(const uint8_t *name, size_t length) {
    for (size_t i = 0; i < length; i++) {
        if (name[i] > ' ' && name[i] < 127 && name[i] != '\\') {
            putchar(name[i]);
        } else {
            printf("\\x%02x", name[i]);
        }
    }
}

/* The kinds of names, in the order of enum monkey_kind: in words, and in JSON. */
static const struct {
    const char *words, *key;
} kinds[] = {
    {"global", "global"}, {"local", "local"}, {"built-in word", "builtin"}, {"captured variable", "captured"}, {"the function itself", "function"},
};

/* Prints where a name stands: line and column, or the offset in the tree. */
static void print_place(const struct arguments *a, struct walk *w, size_t offset) {
    unsigned line, column;
    if (a->tree) {
        printf("offset %u: ", (unsigned)offset);
        return;
    }
    position_of(w->text, w->text_length, place_in_text(w, offset), &line, &column);
    printf("line %u, column %u: ", line, column);
}

/* Prints how one name was resolved. */
static void print_record(const struct arguments *a, struct walk *w, const struct monkey_name *n) {
    const uint8_t *field = w->tree + n->offset; /* tag, length in two bytes, name */
    print_place(a, w, n->offset);
    print_name(field + 3, (size_t)field[1] * 256 + field[2]);
    printf(" is %s", kinds[n->kind].words);
    if (n->kind != MONKEY_FUNCTION) {
        printf(" %u", (unsigned)n->index);
    }
    if (n->crossed > 0) {
        printf(", found %u %s further out", (unsigned)n->crossed, n->crossed == 1 ? "function" : "functions");
    }
    putchar('\n');
}

/* Prints how one name was resolved as an object: its offset is one of the text, or of the tree. */
static void put_record(const struct arguments *a, struct walk *w, const struct monkey_name *n) {
    const uint8_t *field = w->tree + n->offset;
    size_t offset = a->tree ? n->offset : place_in_text(w, n->offset);
    unsigned line, column;
    begin_item();
    if (!a->tree) {
        position_of(w->text, w->text_length, offset, &line, &column);
        put_number("line", line);
        put_number("column", column);
    }
    put_number("offset", (long long)offset);
    put_text("name", field + 3, (size_t)field[1] * 256 + field[2]);
    put_word("kind", kinds[n->kind].key);
    if (n->kind != MONKEY_FUNCTION) {
        put_number("index", n->index);
    }
    put_number("crossed", n->crossed);
    end_item();
}

/* Orders records by their place; compiling has those to the right of `<` first. */
static int by_offset(const void *left, const void *right) {
    uint32_t l = ((const struct monkey_name *)left)->offset;
    uint32_t r = ((const struct monkey_name *)right)->offset;
    return (l > r) - (l < r);
}

/* Prints how each name of a script was resolved, in the order in which they stand there. */
void print_records(const struct arguments *a, const char *path, struct walk *w, struct monkey_name *names, size_t count) {
    qsort(names, count, sizeof names[0], by_offset);
    if (is_json()) {
        begin_object(stdout, path);
        begin_list("names");
    }
    for (size_t k = 0; k < count; k++) {
        (is_json() ? put_record : print_record)(a, w, &names[k]);
    }
    if (is_json()) {
        end_list();
        end_object();
    }
}
