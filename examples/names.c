/*
 * Compiles a profile with records, and says of each of its names how it was resolved, in words. examples/run compares what it prints.
 */
#include <stdio.h>

#include "monkey.h"

/* let top = 40; let limit = fn(speed) { limit; speed; fn() { puts(speed); limit; speed < top } }; */
static const uint8_t profile[] = {
    0x10, 0, 149,                                /* Program */
      0x13, 0, 17,                               /*   Let */
        0x30, 0, 3, 't', 'o', 'p',               /*     name */
        0x26, 0, 8, 0, 0, 0, 0, 0, 0, 0, 40,     /*     Integer */
      0x13, 0, 126,                              /*   Let */
        0x30, 0, 5, 'l', 'i', 'm', 'i', 't',     /*     name */
        0x24, 0, 115,                            /*     Function */
          0x30, 0, 5, 'l', 'i', 'm', 'i', 't',   /*       name */
          0x31, 0, 8,                            /*       parameters */
            0x30, 0, 5, 's', 'p', 'e', 'e', 'd', /*         name */
          0x12, 0, 93,                           /*       Block */
            0x11, 0, 8, 0x20, 0, 5, 'l', 'i', 'm', 'i', 't',
            0x11, 0, 8, 0x20, 0, 5, 's', 'p', 'e', 'e', 'd',
            0x11, 0, 68,                         /*         ExprStmt */
              0x24, 0, 65,                       /*           Function */
                0x30, 0, 0,                      /*             no name */
                0x31, 0, 0,                      /*             no parameters */
                0x12, 0, 56,                     /*             Block */
                  0x11, 0, 18,                   /*               ExprStmt */
                    0x25, 0, 15,                 /*                 Call */
                      0x20, 0, 4, 'p', 'u', 't', 's',
                      0x20, 0, 5, 's', 'p', 'e', 'e', 'd',
                  0x11, 0, 8,                    /*               ExprStmt */
                    0x20, 0, 5, 'l', 'i', 'm', 'i', 't',
                  0x11, 0, 21,                   /*               ExprStmt */
                    0x22, 0, 18,                 /*                 Infix */
                      0x20, 0, 5, 's', 'p', 'e', 'e', 'd',
                      0x32, 0, 1, 8,             /*                   operator < */
                      0x20, 0, 3, 't', 'o', 'p',
};

static uint8_t session[MONKEY_SESSION_SIZE];
static uint8_t output[MONKEY_IMAGE_LIMIT];
static uint8_t code[MONKEY_CODE_SIZE];
static uint32_t table[MONKEY_TABLE_SIZE];
static struct monkey_name names[16];

/* Says how one name was resolved. */
static void say(const uint8_t *tree, const struct monkey_name *n) {
    static const char *const kinds[] = {"definition", "local", "built-in word", "capture", "the function itself"};
    const uint8_t *field = tree + n->offset; /* tag, length in two bytes, name */
    printf("%.*s at %u: %s", field[1] * 256 + field[2], (const char *)field + 3, (unsigned)n->offset, kinds[n->kind]);
    if (n->kind != MONKEY_FUNCTION) {
        printf(" %u", (unsigned)n->index);
    }
    printf(", %u %s crossed\n", (unsigned)n->crossed, n->crossed == 1 ? "function" : "functions");
}

/* Compiles the profile with room for so many records. */
static void show(size_t room) {
    uint64_t answer = monkey_compile_names(session, sizeof session, profile, sizeof profile, output, sizeof output, code, sizeof code, table,
                                           MONKEY_TABLE_SIZE, &names[0].offset, 4 * room);
    if (monkey_number(answer) != 0) {
        printf("%u records: refused %u at %u\n", (unsigned)room, (unsigned)monkey_number(answer), (unsigned)monkey_value(answer));
        return;
    }
    printf("%u records: an image of %u bytes, %u names\n", (unsigned)room, (unsigned)monkey_names_length(answer), (unsigned)monkey_names_count(answer));
    for (size_t k = 0; k < monkey_names_count(answer); k++) {
        say(profile, &names[k]);
    }
}

int main(void) {
    monkey_make_session(session, sizeof session);
    show(4);
    show(16);
    return 0;
}
