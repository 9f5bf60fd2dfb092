/* The exported compile with a fault planted, chosen by the variable FAULT: the comparison, or the counts, must find each (oracle/run faults). */
#define _GNU_SOURCE
#include <stddef.h>
#include <stdint.h>
#include <stdlib.h>
#include <string.h>

uint64_t sound_compile(uint8_t *session, size_t session_length, const uint8_t *tree, size_t tree_length, uint8_t *output,
                       size_t output_length, uint8_t *code, size_t code_length, uint32_t *table, size_t table_length);

uint64_t monkey_compile(uint8_t *session, size_t session_length, const uint8_t *tree, size_t tree_length, uint8_t *output,
                        size_t output_length, uint8_t *code, size_t code_length, uint32_t *table, size_t table_length)
{
    uint64_t answer = sound_compile(session, session_length, tree, tree_length, output, output_length, code, code_length,
                                    table, table_length);
    const char *chosen = getenv("FAULT");
    uint64_t number = answer >> 32, low = answer & 0xffffffff;
    int accepted = number == 0;
    switch (chosen ? atoi(chosen) : 0) {
    case 1: /* the last byte of an image with a function */
        if (accepted && low > 60 && output[5] == 0x1b) output[low - 1] ^= 1;
        break;
    case 2: /* a byte of the session's first word */
        if (accepted && tree_length > 40 && session[2]) session[6] ^= 1;
        break;
    case 3: /* the place of 22 */
        if (number == 22) answer += 1;
        break;
    case 4: /* 9 in place of 10 */
        if (number == 10) answer = ((uint64_t)9 << 32) + low;
        break;
    case 5: /* a work area that is not zero */
        if (number != 1 && tree_length % 97 == 5) code[100] = 1;
        break;
    case 6: /* a refusal that writes the session */
        if (number == 7) session[65000] = 1;
        break;
    case 7: /* output past the image */
        if (accepted && low < output_length && tree_length % 31 == 3) output[low] = 0;
        break;
    case 8: /* a place that tells a literal */
        if (number == 5 && memmem(tree, tree_length, "\x26\0\x08\xff", 4)) answer += 1;
        break;
    case 9: /* too many arguments accepted */
        if (number == 8) answer = 3;
        break;
    case 10: /* the pool said to be full before it is */
        if (accepted && tree_length > 2000) answer = (uint64_t)12 << 32;
        break;
    case 11: /* a step more for one literal, which no answer shows: for the counts */
        if (number != 1 && memmem(tree, tree_length, "\x26\0\x08\xff", 4)) code[0] = 0;
        break;
    }
    return answer;
}
