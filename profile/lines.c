/*
 * From which statement of a script an instruction of main came. What a script compiles to up to the end of a statement is the beginning of what
 * the whole compiles to: the first statement with which main goes past the offset has the instruction. The library compiles each beginning.
 */
#include <stdio.h>
#include <string.h>

#include "code.h"
#include "profile.h"

static uint8_t text[TEXT_ROOM];
static size_t text_length;
static const char *script; /* its path */
static uint8_t output[MONKEY_IMAGE_LIMIT];
static size_t output_length; /* 0, where nothing was compiled */

/* Compiles the beginning of the script in a copy of a session: the length of main, whose code is at output + 3; 0, if it is refused. */
static size_t compile_beginning(size_t length, const uint8_t *session) {
    static uint8_t copy[MONKEY_SESSION_SIZE], tree[MONKEY_TREE_LIMIT], code[MONKEY_CODE_SIZE];
    static uint32_t table[MONKEY_TABLE_SIZE];
    memcpy(copy, session, sizeof copy);
    output[1] = output[2] = 0;
    uint64_t answer = monkey_read_text(text, length, tree, sizeof tree);
    if (monkey_number(answer) == 0) {
        answer = monkey_compile(copy, sizeof copy, tree, monkey_value(answer), output, sizeof output, code, sizeof code, table, MONKEY_TABLE_SIZE);
    }
    output_length = monkey_number(answer) == 0 ? monkey_value(answer) : 0;
    return (size_t)output[1] * 256 + output[2];
}

/* Whether an instruction has an index of the pool or of a global: in a session that has the script's already it is another one. */
static int is_indexed(uint8_t instruction) {
    return instruction == CONSTANT || instruction == CLOSURE || instruction == GET_GLOBAL || instruction == SET_GLOBAL;
}

/* Whether main of an image has the instructions that were compiled, with their operands but for those indices. */
static int is_compiled(const uint8_t *image, size_t length) {
    const uint8_t *compiled = output + 3, *other = image + 3;
    if (length != (size_t)image[1] * 256 + image[2]) {
        return 0;
    }
    for (size_t at = 0; at < length;) {
        size_t end = at + instruction_length(compiled + at);
        size_t compared = is_indexed(compiled[at]) ? at + 3 : at + 1;
        if (compiled[at] != other[at] || memcmp(compiled + compared, other + compared, end - compared) != 0) {
            return 0;
        }
        at = end;
    }
    return 1;
}

/*
 * Reads the script of an image that decodes, and compiles it: it is that only where it gives the image, in a fresh session, or the same instructions,
 * in the image's as it is by now.
 */
int read_lines(const struct arguments *a, const uint8_t *image, size_t image_length, const uint8_t *session) {
    int status = read_input(a->script, text, sizeof text, &text_length);
    if (status != DONE) {
        return status;
    }
    script = a->script;
    size_t length = compile_beginning(text_length, session);
    int same = a->session == NULL ? output_length == image_length && memcmp(output, image, image_length) == 0
                                  : output_length > 0 && is_compiled(image, length);
    return same ? DONE : usage_error(a->command, "the image does not have the code of ", a->script);
}

/* Finds the statement of the script that was read from which the instruction at an offset of its image came. */
void find_line(struct message *m, size_t offset, const uint8_t *session) {
    static size_t ends[TEXT_LIMIT + 2];
    size_t low = 0, high = find_ends(text, text_length, ends); /* up to low main ends before it; up to high it does not, or is the whole */
    while (high - low > 1) {
        size_t middle = low + (high - low) / 2;
        int before = compile_beginning(ends[middle], session) <= offset - 3;
        low = before ? middle : low;
        high = before ? high : middle;
    }
    m->path = script;
    m->text = text;
    m->length = text_length;
    m->place = next_token(text, text_length, ends[low]).at;
}
