/*
 * Instructions: their words and lengths, for which the library is asked; what they take from the stack and give to it, a table; and why the stack
 * of code fails. Only words depend on the table: the library judges. tests/instructions.c compares all of it with the library.
 */
#include <stdio.h>
#include <string.h>

#include "code.h"
#include "monkey.h"

enum { MOST_CODE = 32768, BYTES = 256, LONGEST = 4, MAIN = 0x50, POOL = 0x51 };

/* What the library says of a byte: the length of its instruction, 0 where it has none, and its word. */
static struct {
    size_t length;
    char word[24];
} instructions[BYTES];

/* Lists an instruction of a length alone, all operands 0: whether there is one. */
static int list_alone(uint8_t byte, size_t length) {
    static uint8_t listing[256]; /* two short lines */
    uint8_t image[6 + LONGEST] = {MAIN, 0, (uint8_t)length, byte};
    image[3 + length] = POOL;
    uint64_t answer = monkey_list_image(image, 6 + length, listing, sizeof listing - 1);
    if (monkey_number(answer) != 0) {
        return 0;
    }
    listing[monkey_value(answer)] = 0;
    instructions[byte].length = length;
    return sscanf((const char *)listing, "main %*u 0000 %23s", instructions[byte].word) == 1;
}

/* Asks the library for all instructions, once. */
static void learn_instructions(void) {
    static int learned;
    for (unsigned byte = 0; !learned && byte < BYTES; byte++) {
        for (size_t length = 1; length <= LONGEST && !list_alone((uint8_t)byte, length);) {
            length++;
        }
    }
    learned = 1;
}

/* The length of the instruction at an address. */
size_t instruction_length(const uint8_t *at) {
    learn_instructions();
    return instructions[at[0]].length;
}

/* The first operand of the instruction at an address, of at most two bytes; 0, if it has none. */
unsigned operand_of(const uint8_t *at) {
    size_t length = instruction_length(at);
    return length < 2 ? 0 : length == 2 ? at[1] : at[1] * 256u + at[2];
}

/* Names the instruction at an address of an image, with its first operand and its offset. */
void name_instruction(char *text, size_t room, const uint8_t *image, const uint8_t *at) {
    char named[16] = "";
    if (instruction_length(at) > 1) {
        snprintf(named, sizeof named, " %u", operand_of(at));
    }
    snprintf(text, room, "%s%s at offset %zu of the image", instructions[*at].word, named, (size_t)(at - image));
}

/* By byte: values that are taken and given. Array, Hash, Call and Closure take besides what an operand says. */
static const struct {
    unsigned takes, gives;
} effects[] = {
    {0, 1}, {2, 1}, {1, 0}, {2, 1}, {2, 1}, {2, 1}, {0, 1}, {0, 1}, {2, 1}, {2, 1}, {2, 1}, {1, 1}, {1, 1}, {1, 0}, {0, 0},
    {0, 1}, {0, 1}, {1, 0}, {0, 1}, {0, 1}, {2, 1}, {1, 1}, {1, 0}, {0, 0}, {0, 1}, {1, 0}, {0, 1}, {0, 1}, {0, 1}, {0, 1},
};

/* How many values the instruction at an address takes. */
unsigned values_taken(const uint8_t *at) {
    switch (at[0]) {
    case ARRAY:
    case HASH:
    case CALL:
        return effects[at[0]].takes + operand_of(at);
    case CLOSURE:
        return at[3];
    default:
        return effects[at[0]].takes;
    }
}

/* How many values the instruction at an address gives. */
unsigned values_given(const uint8_t *at) {
    return effects[at[0]].gives;
}

static uint8_t starts[MOST_CODE]; /* whether an instruction of the chunk begins at an offset */

/* Marks where the instructions of a chunk begin. */
void mark_starts(const struct chunk *c) {
    memset(starts, 0, c->length);
    for (size_t at = 0; at < c->length; at += instruction_length(c->code + at)) {
        starts[at] = 1;
    }
}

/* Whether the jump at an offset of the chunk that is marked goes to a later instruction of it. */
int lands(const struct chunk *c, size_t at) {
    unsigned target = operand_of(c->code + at);
    return target > at && target < c->length && starts[target];
}

static unsigned counts[MOST_CODE + 1]; /* by offset: one more than the values that are there before it, or 0 where it is not reached */

/* Goes on to an offset with so many values on the stack: whether it was reached with as many, or not at all. */
static int reach(size_t to, unsigned values) {
    if (counts[to] == 0) {
        counts[to] = values + 1;
    }
    return counts[to] == values + 1;
}

/* Follows the instruction at an offset that is reached: whether what it goes on to is reached with one number of values ; else where. */
static int follow(const struct chunk *c, size_t at, size_t *other) {
    const uint8_t *i = c->code + at;
    unsigned values = counts[at] - 1 - values_taken(i) + values_given(i);
    int jumps = (*i == JUMP || *i == JUMP_NOT_TRUTHY) && lands(c, at);
    int goes_on = *i != JUMP && *i != RETURN && *i != RETURN_VALUE;
    *other = at + instruction_length(i);
    if (goes_on && !reach(*other, values)) {
        return 0;
    }
    *other = operand_of(i);
    return !jumps || reach(*other, values);
}

/* Says why a stack fails at an offset that is reached, if it does: whether there was something to say. */
static int explain_at(char *text, size_t room, const uint8_t *image, const struct chunk *c, size_t at) {
    char name[64] = "its end";
    size_t other;
    if (values_taken(c->code + at) > counts[at] - 1) {
        name_instruction(name, sizeof name, image, c->code + at);
        snprintf(text, room, ": %s takes %u of %u values", name, values_taken(c->code + at), counts[at] - 1);
        return 1;
    }
    if (follow(c, at, &other)) {
        return 0;
    }
    if (other < c->length) {
        name_instruction(name, sizeof name, image, c->code + other);
    }
    snprintf(text, room, ": %s is reached with different numbers of values", name);
    return 1;
}

/* Says which jump of a chunk is the first that does not land, if one is. */
void explain_jump(char *text, size_t room, const uint8_t *image, const struct chunk *c) {
    char name[64];
    mark_starts(c);
    for (size_t at = 0; at < c->length; at += instruction_length(c->code + at)) {
        if ((c->code[at] == JUMP || c->code[at] == JUMP_NOT_TRUTHY) && !lands(c, at)) {
            name_instruction(name, sizeof name, image, c->code + at);
            snprintf(text, room, ": %s goes to where no later instruction begins", name);
            return;
        }
    }
}

/* Says why the stack of a chunk fails; nothing, where only jumps go nowhere. */
void explain_stack(char *text, size_t room, const uint8_t *image, const struct chunk *c) {
    text[0] = 0;
    mark_starts(c);
    memset(counts, 0, sizeof counts);
    counts[0] = 1;
    for (size_t at = 0; at < c->length; at += instruction_length(c->code + at)) {
        if (counts[at] != 0 && explain_at(text, room, image, c, at)) {
            return;
        }
    }
    if (c->function != NULL && counts[c->length] != 0) {
        snprintf(text, room, ": its end is reached without a return");
    } else if (counts[c->length] > 1) {
        snprintf(text, room, ": its end is reached with %u on the stack", counts[c->length] - 1);
    }
}
