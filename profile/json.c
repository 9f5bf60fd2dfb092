/*
 * What --json prints: objects in JSON, each in a line of its own, on standard output or where a listing goes. Text is UTF-8 as it is, controls,
 * quotes and backslashes escaped; a byte that is no UTF-8, which JSON cannot have, is U+FFFD.
 */
#include <stdio.h>
#include <string.h>

#include "profile.h"

static int wanted; /* --json */
static FILE *to;   /* where the object that is begun goes */
static int comma;  /* whether one stands before what is next */

/* Has results and refusals printed as objects, or not. */
void want_json(int json) {
    wanted = json;
}

/* Whether results and refusals are printed as objects. */
int is_json(void) {
    return wanted;
}

/* Writes the character or the byte that begins here, where so many bytes are left, and answers its length. */
static size_t put_character(const uint8_t *at, size_t left) {
    size_t length = character(at, left);
    if (at[0] == '"' || at[0] == '\\') {
        fprintf(to, "\\%c", at[0]);
    } else if (length > 0) {
        fwrite(at, 1, length, to);
    } else if (at[0] < 0x80) {
        fprintf(to, "\\u%04x", at[0]);
    } else if (at[0] == 0xc2 && left > 1 && at[1] >= 0x80 && at[1] < 0xa0) { /* controls of two bytes */
        fprintf(to, "\\u%04x", at[1]);
        length = 2;
    } else {
        fputs("\\ufffd", to);
    }
    return length > 0 ? length : 1;
}

/* Writes a string. */
static void put_string(const uint8_t *bytes, size_t length) {
    putc('"', to);
    for (size_t at = 0; at < length;) {
        at += put_character(bytes + at, length - at);
    }
    putc('"', to);
}

/* Writes what stands before a value: its key. */
static void put_key(const char *key) {
    fprintf(to, "%s\"%s\":", comma ? "," : "", key);
    comma = 1;
}

/* Begins an object of a list. */
void begin_item(void) {
    fputs(comma ? ",{" : "{", to);
    comma = 0;
}

/* Ends an object of a list. */
void end_item(void) {
    putc('}', to);
    comma = 1;
}

/* Begins an object by its key. */
void begin_part(const char *key) {
    put_key(key);
    comma = 0;
    begin_item();
}

/* Begins an object about a file, which is named as on the command line. */
void begin_object(FILE *stream, const char *path) {
    to = stream;
    comma = 0;
    begin_item();
    put_text("file", (const uint8_t *)path, strlen(path));
}

/* Ends an object, and its line. */
void end_object(void) {
    fputs("}\n", to);
}

/* Begins a list. */
void begin_list(const char *key) {
    put_key(key);
    putc('[', to);
    comma = 0;
}

/* Ends a list. */
void end_list(void) {
    putc(']', to);
    comma = 1;
}

/* Writes a text by its key. */
void put_text(const char *key, const uint8_t *bytes, size_t length) {
    put_key(key);
    put_string(bytes, length);
}

/* Writes a word, which is text of the command's own, by its key. */
void put_word(const char *key, const char *word) {
    put_text(key, (const uint8_t *)word, strlen(word));
}

/* Writes a number by its key. */
void put_number(const char *key, long long number) {
    put_key(key);
    fprintf(to, "%lld", number);
}

/* Writes true, false or null by its key. */
void put_literal(const char *key, const char *literal) {
    put_key(key);
    fputs(literal, to);
}

/* Writes the number of a refusal, or an offset, by its key: null, where it is below the least. */
static void put_known(const char *key, long long number, long long least) {
    if (number < least) {
        put_literal(key, "null");
    } else {
        put_number(key, number);
    }
}

/* Begins a refusal: line and column are 0 of what is no text, the offset NO_OFFSET where there is none, the number 0 where it has none. */
static void begin_refusal(const char *path, unsigned line, unsigned column, long long offset, unsigned number, const char *reason) {
    begin_object(stdout, path);
    put_known("line", line, 1);
    put_known("column", column, 1);
    put_known("offset", offset, 0);
    put_known("number", number, 1);
    put_word("reason", reason);
}

/* Ends a refusal: the status of the command. */
static int end_refusal(void) {
    end_object();
    return finish_stdout() == DONE ? REFUSED : FAILED;
}

/* Prints a refusal of a file that is no text. */
int print_refusal(const char *path, long long offset, unsigned number, const char *reason) {
    begin_refusal(path, 0, 0, offset, number, reason);
    put_literal("text", "null");
    return end_refusal();
}

/* Writes the line of a text in which a place stands. */
static void put_line(const struct message *m, size_t place) {
    size_t begin = place, end = place;
    while (begin > 0 && m->text[begin - 1] != '\n') {
        begin--;
    }
    while (end < m->length && m->text[end] != '\n') {
        end++;
    }
    end -= end > begin && m->text[end - 1] == '\r';
    put_text("text", m->text + begin, end - begin);
}

/* Writes a place of a text: line, column, offset; a reason, where there is one, and the line. */
void put_place(const struct message *m, size_t place, const char *reason) {
    unsigned line, column;
    position_of(m->text, m->length, place, &line, &column);
    put_number("line", line);
    put_number("column", column);
    put_number("offset", (long long)place);
    if (reason != NULL) {
        put_word("reason", reason);
    }
    put_line(m, place);
}

/* Prints a refusal at a place of a text, with its line, and the note on it. */
int print_message(const struct message *m, unsigned number) {
    unsigned line, column;
    position_of(m->text, m->length, m->place, &line, &column);
    begin_refusal(m->path, line, column, (long long)m->place, number, m->reason);
    put_line(m, m->place);
    if (m->note != NULL) {
        begin_part("note");
        put_place(m, m->noted, m->note);
        end_item();
    }
    return end_refusal();
}
