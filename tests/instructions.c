/*
 * Compares what the command says of instructions (profile/code.c) with the library, for each byte and several operands: whether it has an instruction, its
 * word, length and operand with the library's listing; what it takes and gives, with whether the library takes the heights of code around it.
 */
#include <stdio.h>
#include <string.h>

#include "../profile/code.h"
#include "monkey.h"

enum { VALUES = 8, POP = 0x02, NOTHING = 0x0f };

static unsigned compared;

/* The constants of profile/code.h, and the words of the library for them. */
static const struct {
    uint8_t byte;
    const char *word;
} named[] = {
    {CONSTANT, "Constant"}, {DIV, "Div"}, {GREATER_THAN, "GreaterThan"}, {JUMP_NOT_TRUTHY, "JumpNotTruthy"}, {JUMP, "Jump"},
    {GET_GLOBAL, "GetGlobal"}, {SET_GLOBAL, "SetGlobal"}, {ARRAY, "Array"}, {HASH, "Hash"}, {INDEX, "Index"}, {CALL, "Call"},
    {RETURN_VALUE, "ReturnValue"}, {RETURN, "Return"}, {GET_LOCAL, "GetLocal"}, {SET_LOCAL, "SetLocal"}, {GET_BUILTIN, "GetBuiltin"},
    {CLOSURE, "Closure"}, {GET_FREE, "GetFree"}, {CURRENT_CLOSURE, "CurrentClosure"},
};

/* Makes an image of code: of main, or of one function, main being empty. Answers its length. */
static size_t make_image(uint8_t *image, const uint8_t *code, size_t length, int in_function) {
    const uint8_t main_head[] = {0x50, 0, (uint8_t)length};
    const uint8_t function_head[] = {0x50, 0, 0, 0x51, 0, (uint8_t)(length + 6), 0x62, 0, (uint8_t)(length + 3), 0, 0, 0};
    const uint8_t no_pool[] = {0x51, 0, 0};
    size_t head = in_function ? sizeof function_head : sizeof main_head;
    memcpy(image, in_function ? function_head : main_head, head);
    memcpy(image + head, code, length);
    if (in_function) {
        return head + length;
    }
    memcpy(image + head + length, no_pool, sizeof no_pool);
    return head + length + sizeof no_pool;
}

/* Whether the library takes the heights that it proposes for code. */
static int passes(const uint8_t *code, size_t length, int in_function) {
    static uint32_t heights[MONKEY_HEIGHTS_LIMIT], greatest[MONKEY_CHUNKS_LIMIT];
    uint8_t image[128];
    size_t whole = make_image(image, code, length, in_function);
    uint64_t answer = monkey_propose_heights(image, whole, heights, MONKEY_HEIGHTS_LIMIT);
    return monkey_number(answer) == 0 &&
           monkey_number(monkey_check_heights(image, whole, heights, monkey_value(answer), greatest, MONKEY_CHUNKS_LIMIT)) == 0;
}

/* Says that an instruction differs. */
static int differs(const uint8_t *at, const char *what) {
    fprintf(stderr, "instructions: byte %02x, operands %02x %02x %02x: %s differs\n", at[0], at[1], at[2], at[3], what);
    return 0;
}

/* Compares word, first operand and length of an instruction with the listing of it and a Pop behind it. */
static int compare_listing(const uint8_t *at, size_t length) {
    char listing[256], expected[128], name[64];
    uint8_t code[8], image[32];
    memcpy(code, at, length);
    code[length] = POP;
    size_t whole = make_image(image, code, length + 1, 0);
    uint64_t answer = monkey_list_image(image, whole, (uint8_t *)listing, sizeof listing - 1);
    if (monkey_number(answer) != 0) {
        return differs(at, "whether there is one, or its length");
    }
    listing[monkey_value(answer)] = 0;
    name_instruction(name, sizeof name, at, at);
    *strstr(name, " at offset ") = 0;
    size_t begun = (size_t)snprintf(expected, sizeof expected, "main %u\n0000 %s", (unsigned)length + 1, name);
    char end[24];
    snprintf(end, sizeof end, "\n%04u Pop\npool 0\n", (unsigned)length);
    const char *rest = listing + begun;
    if (strncmp(listing, expected, begun) != 0 || (rest[0] != '\n' && rest[0] != ' ') || strcmp(strchr(rest, '\n'), end) != 0) {
        return differs(at, "its word, operand or length");
    }
    return 1;
}

/* Compares what an instruction takes and gives, from so many values: it passes in main if exactly what is left then is dropped. */
static int compare_effect(const uint8_t *at, size_t length, unsigned values) {
    uint8_t code[64];
    unsigned takes = values_taken(at), gives = values_given(at);
    int ends = at[0] == RETURN || at[0] == RETURN_VALUE;
    memset(code, NOTHING, values);
    memcpy(code + values, at, length);
    if (at[0] == JUMP || at[0] == JUMP_NOT_TRUTHY) {
        code[values + 2] = (uint8_t)(values + length); /* to what is next */
    }
    for (unsigned drops = 0; drops <= VALUES + 1; drops++) {
        memset(code + values + length, POP, drops);
        int last = at[0] != JUMP && at[0] != JUMP_NOT_TRUTHY ? 0 : 1; /* a jump lands on an instruction: a value, which is dropped */
        if (last) {
            code[values + length] = NOTHING;
            memset(code + values + length + 1, POP, drops);
        }
        size_t whole = values + length + (size_t)last + drops;
        int expected = ends ? values >= takes : values >= takes && drops == values - takes + gives + (unsigned)last;
        compared++;
        if (passes(code, ends ? values + length : whole, ends) != expected) {
            return differs(at, "what it takes or gives");
        }
    }
    return 1;
}

/* Compares the instruction of a byte with several operands. */
static int compare(uint8_t byte) {
    for (unsigned operand = 0; operand <= 3; operand++) {
        uint8_t two[] = {byte, 0, (uint8_t)operand, (uint8_t)(3 - operand)};
        uint8_t one[] = {byte, (uint8_t)operand, 0, 0};
        const uint8_t *at = instruction_length(two) == 2 ? one : two;
        if (!compare_listing(at, instruction_length(at))) {
            return 0;
        }
        for (unsigned values = 0; values <= VALUES; values++) {
            if (!compare_effect(at, instruction_length(at), values)) {
                return 0;
            }
        }
    }
    return 1;
}

/* Whether no length gives a byte an instruction, asked of the library. */
static int is_none(uint8_t byte) {
    uint8_t code[6] = {byte, 0, 0, 0, 0, 0}, image[32], none;
    for (size_t length = 1; length <= sizeof code; length++) {
        size_t whole = make_image(image, code, length, 0);
        if (monkey_number(monkey_list_image(image, whole, &none, 0)) != MONKEY_BAD_IMAGE) {
            return 0;
        }
    }
    return 1;
}

/* Compares all, and says how many there are. */
int main(void) {
    unsigned count = 0;
    for (unsigned byte = 0; byte < 256; byte++) {
        uint8_t at[4] = {(uint8_t)byte, 0, 0, 0};
        int there = instruction_length(at) > 0;
        if (there ? !compare((uint8_t)byte) : !is_none((uint8_t)byte)) {
            fprintf(stderr, "instructions: byte %02x\n", byte);
            return 1;
        }
        count += (unsigned)there;
    }
    for (size_t k = 0; k < sizeof named / sizeof named[0]; k++) {
        char name[64];
        uint8_t at[4] = {named[k].byte, 0, 0, 0};
        name_instruction(name, sizeof name, at, at);
        size_t end = strlen(named[k].word);
        if (strncmp(name, named[k].word, end) != 0 || name[end] != ' ') {
            fprintf(stderr, "instructions: %02x is no %s\n", at[0], named[k].word);
            return 1;
        }
    }
    printf("instructions: %u instructions, %u pieces of code agree\n", count, compared);
    return count == 30 ? 0 : 1;
}
