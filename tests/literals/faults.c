/*
 * The exported compile call with a fault planted, the one of number FAULT: each lets a literal be seen, and tests/literals/run faults must find
 * each. The library's own call is linked by the name __real_monkey_compile.
 */
#include <stddef.h>
#include <stdint.h>

#include "monkey.h"

uint64_t __real_monkey_compile(uint8_t *session, size_t session_length, const uint8_t *tree, size_t tree_length,
                               uint8_t *output, size_t output_length,
                               uint8_t *code, size_t code_length, uint32_t *table, size_t table_length);
uint64_t __wrap_monkey_compile(uint8_t *session, size_t session_length, const uint8_t *tree, size_t tree_length,
                               uint8_t *output, size_t output_length,
                               uint8_t *code, size_t code_length, uint32_t *table, size_t table_length);

static volatile unsigned seen;

/* The content of the first field of a tag in a sound tree, or null. */
static const uint8_t *first_literal(const uint8_t *tree, size_t length, uint8_t tag) {
    for (size_t at = 0; at + 3 < length;) {
        uint8_t found = tree[at];
        if (found == tag) {
            return tree + at + 3;
        }
        int leaf = found == 0x20 || (found >= 0x26 && found <= 0x28) || found == 0x30 || found == 0x32;
        at += 3 + (leaf ? tree[at + 1] * (size_t)256 + tree[at + 2] : 0);
    }
    return NULL;
}

uint64_t __wrap_monkey_compile(uint8_t *session, size_t session_length, const uint8_t *tree, size_t tree_length,
                               uint8_t *output, size_t output_length,
                               uint8_t *code, size_t code_length, uint32_t *table, size_t table_length) {
    static const uint8_t squares[256] = {0, 1, 4, 9};
    uint64_t answer =
        __real_monkey_compile(session, session_length, tree, tree_length, output, output_length, code, code_length, table, table_length);
    const uint8_t *literal = first_literal(tree, tree_length, FAULT == 2 ? 0x28 : FAULT == 3 ? 0x27 : 0x26);
    if (monkey_number(answer) != 0 || literal == NULL || (FAULT == 2 && literal[-1] == 0)) {
        return answer;
    }
    switch (FAULT) {
    case 1: /* a step more where an integer is small */
        if (literal[6] == 0) {
            seen++;
        }
        break;
    case 2: /* a string's byte is looked up in a table */
        seen += squares[literal[0]];
        break;
    case 3: /* a step more where a Boolean is true, which its own checks do not account for */
        if (literal[0] == 1) {
            seen++;
        }
        break;
    case 4: /* an integer's byte stays in a work area */
        code[100] = literal[7];
        break;
    case 5: /* a bit of an integer in the answer, without a branch */
        answer += literal[7] & 1;
        break;
    case 6: /* a bit of an integer in the first instruction's operand, so in a byte that is no literal's */
        output[4] ^= literal[7] & 1;
        break;
    case 7: /* an integer's byte behind the image */
        output[monkey_value(answer)] = literal[7];
        break;
    case 8: /* an integer's byte in the zeros of the session */
        session[65535] = literal[7];
        break;
    default:
        break;
    }
    return answer;
}
