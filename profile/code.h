/*
 * Code of an image that decodes: instructions by their bytes, as far as the command looks at them, and chunks.
 */
#ifndef CODE_H
#define CODE_H

#include <stddef.h>
#include <stdint.h>

enum {
    CONSTANT = 0x00, DIV = 0x05, GREATER_THAN = 0x0a, JUMP_NOT_TRUTHY = 0x0d, JUMP = 0x0e, GET_GLOBAL = 0x10, SET_GLOBAL = 0x11, ARRAY = 0x12,
    HASH = 0x13, INDEX = 0x14, CALL = 0x15, RETURN_VALUE = 0x16, RETURN = 0x17, GET_LOCAL = 0x18, SET_LOCAL = 0x19, GET_BUILTIN = 0x1a,
    CLOSURE = 0x1b, GET_FREE = 0x1c, CURRENT_CLOSURE = 0x1d
};

struct constant;

/* Code: main's, which has no function, or that of a function in the pool. */
struct chunk {
    const uint8_t *code;
    size_t length;
    const struct constant *function;
};

unsigned operand_of(const uint8_t *at);
size_t instruction_length(const uint8_t *at);
unsigned values_taken(const uint8_t *at);
unsigned values_given(const uint8_t *at);
void name_instruction(char *text, size_t room, const uint8_t *image, const uint8_t *at);
void mark_starts(const struct chunk *c);
int lands(const struct chunk *c, size_t at);
void explain_jump(char *text, size_t room, const uint8_t *image, const struct chunk *c);
void explain_stack(char *text, size_t room, const uint8_t *image, const struct chunk *c);

#endif
