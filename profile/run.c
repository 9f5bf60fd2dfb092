/*
 * run: main of an image is tried, and its globals are printed.
 */
#include <stdio.h>

#include "profile.h"

static const uint8_t *image;
static size_t image_length;
static uint32_t heights[MONKEY_HEIGHTS_LIMIT];
static uint64_t work[MONKEY_WORK_SIZE];
static uint8_t globals[MONKEY_GLOBALS_LIMIT];
static uint8_t session[MONKEY_SESSION_SIZE];

/* Reads the session whose names are shown; the compiler judges it, on a script without statements. */
static int read_names(const struct arguments *a) {
    static const uint8_t nothing[] = {0x10, 0, 0};
    static uint8_t output[MONKEY_IMAGE_LIMIT];
    static uint8_t code[MONKEY_CODE_SIZE];
    static uint32_t table[MONKEY_TABLE_SIZE];
    int status = read_session(a->session, session);
    if (status != DONE) {
        return status;
    }
    uint64_t answer = monkey_compile(session, sizeof session, nothing, sizeof nothing, output, sizeof output, code, sizeof code, table, MONKEY_TABLE_SIZE);
    return monkey_number(answer) == 0 ? DONE : refuse_plainly(a->session, answer);
}

/* Reads or makes the session of a command: that of the names, or that in which the script is compiled. */
static int have_session(const struct arguments *a) {
    if (a->session == NULL) {
        return open_session(a, session, 0);
    }
    return a->words != NULL ? usage_error(a->command, "--words is for a new session, and there is ", a->session) : read_names(a);
}

/* Kinds of globals, as the library numbers them. */
enum { UNSET, INTEGER, BOOLEAN, NOTHING };

static const char *const kinds[] = {"unset", "integer", "boolean", "null"};

/* The value of a global's row: an integer, or 1 for true. */
static long long value_of(const uint8_t *row) {
    uint64_t bits = 0;
    for (int i = 1; i < 9; i++) {
        bits = bits << 8 | row[i];
    }
    return (long long)(int64_t)bits;
}

/* Prints the row of a global: index, kind, value, and its name where a session has one. */
static void print_global(const struct arguments *a, unsigned index, const uint8_t *row) {
    char value[32];
    size_t length = 0;
    if (row[0] == INTEGER) {
        snprintf(value, sizeof value, "%lld", value_of(row));
    } else {
        snprintf(value, sizeof value, "%s", row[0] != BOOLEAN ? "-" : value_of(row) != 0 ? "true" : "false");
    }
    const uint8_t *name = a->session == NULL ? NULL : global_name(session, index, &length);
    printf("%-8u%-9s%-*s", index, kinds[row[0]], name == NULL ? 0 : 21, value);
    for (size_t i = 0; name != NULL && i < length; i++) {
        putchar(name[i] > ' ' && name[i] < 127 ? name[i] : '?');
    }
    putchar('\n');
}

/* Prints the row of a global as an object. */
static void put_global(const struct arguments *a, unsigned index, const uint8_t *row) {
    size_t length = 0;
    const uint8_t *name = a->session == NULL ? NULL : global_name(session, index, &length);
    begin_item();
    put_number("index", index);
    if (name != NULL) {
        put_text("name", name, length);
    }
    put_word("kind", kinds[row[0]]);
    if (row[0] == INTEGER) {
        put_number("value", value_of(row));
    } else {
        put_literal("value", row[0] != BOOLEAN ? "null" : value_of(row) != 0 ? "true" : "false");
    }
    end_item();
}

/* Prints what a run answered. */
static int print_run(const struct arguments *a, uint64_t answer) {
    if (is_json()) {
        begin_object(stdout, a->operands[0]);
        begin_list("globals");
    } else {
        printf("%-8s%-9s%s\n", "global", "kind", a->session == NULL ? "value" : "value                name");
    }
    for (unsigned k = 0; k < monkey_run_globals(answer); k++) {
        (is_json() ? put_global : print_global)(a, k, globals + 9 * k);
    }
    if (is_json()) {
        end_list();
        put_number("instructions", monkey_run_steps(answer));
        end_object();
    } else {
        printf("%u instructions executed\n", (unsigned)monkey_run_steps(answer));
    }
    return finish_stdout();
}

/* Says why a run was refused at an instruction: with the statement from which it came, where the script is given. */
static int refuse_run(const struct arguments *a, uint64_t answer) {
    struct message m = {.path = a->operands[0]};
    explain_trial(m.reason, sizeof m.reason, answer, image, image_length, a->session == NULL ? NULL : session);
    if (a->script == NULL) {
        return say_error(m.path, monkey_value(answer), monkey_number(answer), m.reason);
    }
    find_line(&m, monkey_value(answer), session);
    return say_message(&m, monkey_number(answer));
}

/* profile run */
int run_run(const struct arguments *a) {
    int status = read_image(a->operands[0], &image, &image_length);
    if (status == DONE) {
        status = have_session(a);
    }
    if (status != DONE) {
        return status;
    }
    uint64_t answer = monkey_propose_heights(image, image_length, heights, MONKEY_HEIGHTS_LIMIT);
    if (monkey_number(answer) == 0 && a->script != NULL) {
        status = read_lines(a, image, image_length, session);
        if (status != DONE) {
            return status;
        }
    }
    if (monkey_number(answer) == 0) {
        answer = monkey_run(image, image_length, heights, monkey_value(answer), work, MONKEY_WORK_SIZE, globals, sizeof globals);
    }
    if (monkey_number(answer) >= MONKEY_NOT_RUNNABLE) {
        return refuse_run(a, answer);
    }
    return monkey_number(answer) == 0 ? print_run(a, answer) : refuse_image(a->operands[0], answer);
}
