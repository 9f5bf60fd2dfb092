/*
 * Errors as they are printed: a file, with line and column where it is a text, the number, the reason; of a text the line too, and a caret
 * below the place.
 */
#define _XOPEN_SOURCE 700
#include <stdio.h>
#include <stdlib.h>
#include <string.h>
#include <unistd.h>

#include "profile.h"

enum { WIDEST = 120, BEFORE = 60 }; /* characters of a line that are shown, and of them before the place */

/* Whether standard error shows colours: it is a terminal, and nothing asks to have none. */
static int is_coloured(void) {
    const char *none = getenv("NO_COLOR");
    const char *terminal = getenv("TERM");
    return (none == NULL || none[0] == 0) && terminal != NULL && strcmp(terminal, "dumb") != 0 && isatty(2);
}

/* Begins red, where there are colours. */
static const char *red(void) {
    return is_coloured() ? "\033[1;31m" : "";
}

/* Ends a colour. */
static const char *plain(void) {
    return is_coloured() ? "\033[0m" : "";
}

/* Says an error of a file: its number, or 0 where it has none, and the reason, in which the offset is named. */
int say_error(const char *path, long long offset, unsigned number, const char *reason) {
    char numbered[16] = "";
    if (is_json()) {
        return print_refusal(path, offset, number, reason);
    }
    if (number > 0) {
        snprintf(numbered, sizeof numbered, "[%u]", number);
    }
    fprintf(stderr, "%s: %serror%s:%s %s\n", shown_path(path), red(), numbered, plain(), reason);
    return REFUSED;
}

/* The end of the character that begins at an offset of a text; a byte that is none ends behind itself. */
static size_t step(const uint8_t *text, size_t length, size_t at) {
    size_t bytes = character(text + at, length - at);
    return at + (bytes == 0 ? 1 : bytes);
}

/* The line and the column of an offset in a text, both from 1; columns count characters. */
void position_of(const uint8_t *text, size_t length, size_t place, unsigned *line, unsigned *column) {
    *line = 1;
    *column = 1;
    for (size_t i = 0; i < place && i < length; i = step(text, length, i)) {
        *column = text[i] == '\n' ? 1 : *column + 1;
        *line += text[i] == '\n';
    }
}

/* Whether a character is not seen, or turns the order of those behind it: marks of width and direction, and the byte order mark. */
static int is_unseen(const uint8_t *at, size_t length) {
    if (length != 3 || (at[0] != 0xe2 && at[0] != 0xef)) {
        return 0;
    }
    if (at[0] == 0xef) {
        return at[1] == 0xbb && at[2] == 0xbf;
    }
    if (at[1] == 0x80) {
        return (at[2] >= 0x8b && at[2] <= 0x8f) || (at[2] >= 0xa8 && at[2] <= 0xae);
    }
    return at[1] == 0x81 && at[2] >= 0xa0 && at[2] <= 0xaf;
}

/* Writes characters of a line, or a blank for each; tabs stay, and what a terminal must not get is a question mark. */
static char *write_characters(char *to, const uint8_t *text, size_t from, size_t end, int blank) {
    while (from < end) {
        size_t next = step(text, end, from);
        if (text[from] == '\t') {
            *to++ = '\t';
        } else if (blank || character(text + from, end - from) == 0 || is_unseen(text + from, next - from)) {
            *to++ = blank ? ' ' : '?';
        } else {
            memcpy(to, text + from, next - from);
            to += next - from;
        }
        from = next;
    }
    *to = 0;
    return to;
}

/* Prints the line of a place, of a long one what is around the place, and a caret below it. */
static void print_line(const struct message *m, size_t place, unsigned line, unsigned column) {
    char shown_line[4 * WIDEST + 1], blanks[BEFORE + 1];
    size_t begin = place, end;
    while (begin > 0 && m->text[begin - 1] != '\n') {
        begin--;
    }
    size_t first = begin;
    for (unsigned left = column; left > BEFORE; left--) {
        begin = step(m->text, m->length, begin);
    }
    end = begin;
    for (int k = 0; k < WIDEST && end < m->length && m->text[end] != '\n' && m->text[end] != '\r'; k++) {
        end = step(m->text, m->length, end);
    }
    int more = end < m->length && m->text[end] != '\n' && m->text[end] != '\r';
    write_characters(shown_line, m->text, begin, end, 0);
    write_characters(blanks, m->text, begin, place, 1);
    const char *cut = begin > first ? ".." : "";
    fprintf(stderr, "%5u | %s%s%s\n", line, cut, shown_line, more ? ".." : "");
    fprintf(stderr, "      | %s%s%s^%s\n", begin > first ? "  " : "", blanks, red(), plain());
}

/* Says what stands at a place of a text, which is no error. */
void say_place(const struct message *m, const char *head, const char *reason) {
    unsigned line, column;
    position_of(m->text, m->length, m->place, &line, &column);
    fprintf(stderr, "%s:%u:%u: %s: %s\n", shown_path(m->path), line, column, head, reason);
    print_line(m, m->place, line, column);
}

/* Says an error at a place of a text, and the note on it. */
int say_message(const struct message *m, unsigned number) {
    unsigned line, column;
    if (is_json()) {
        return print_message(m, number);
    }
    position_of(m->text, m->length, m->place, &line, &column);
    fprintf(stderr, "%s:%u:%u: %serror[%u]:%s %s\n", shown_path(m->path), line, column, red(), number, plain(), m->reason);
    print_line(m, m->place, line, column);
    if (m->note != NULL) {
        position_of(m->text, m->length, m->noted, &line, &column);
        fprintf(stderr, "%s:%u:%u: note: %s\n", shown_path(m->path), line, column, m->note);
        print_line(m, m->noted, line, column);
    }
    return REFUSED;
}
