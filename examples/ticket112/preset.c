/*
 * Compiles a script in text form from standard input in a fresh session, and writes its image to standard output. examples/ticket112/run builds it.
 */
#include <stdio.h>

#include "monkey.h"

enum { TEXT_LIMIT = 8193 }; /* a script may have 8,192 bytes; one more is read so that a longer one is refused */

static uint8_t text[TEXT_LIMIT], tree[MONKEY_TREE_LIMIT], output[MONKEY_IMAGE_LIMIT];
static uint8_t session[MONKEY_SESSION_SIZE], code[MONKEY_CODE_SIZE];
static uint32_t table[MONKEY_TABLE_SIZE];

/* Says of a refusal who refused, number and place. */
static int refused(const char *what, uint64_t answer) {
    fprintf(stderr, "preset: %s refused %u at %u\n", what, (unsigned)monkey_number(answer), (unsigned)monkey_value(answer));
    return 1;
}

int main(void) {
    size_t length = fread(text, 1, sizeof text, stdin);
    uint64_t answer = monkey_read_text(text, length, tree, sizeof tree);
    if (ferror(stdin) || monkey_number(answer) != 0) {
        return refused("the text is", answer);
    }
    monkey_make_session(session, sizeof session);
    answer = monkey_compile(session, sizeof session, tree, monkey_value(answer), output, sizeof output,
                            code, sizeof code, table, MONKEY_TABLE_SIZE);
    if (monkey_number(answer) != 0) {
        return refused("the tree is", answer);
    }
    size_t written = fwrite(output, 1, monkey_value(answer), stdout);
    return written != monkey_value(answer) || fflush(stdout) != 0;
}
