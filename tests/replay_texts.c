/*
 * Replays the cases of a file of texts (cases/README.md) through monkey_read_text: number and place, or the length, the tree and every byte behind it; where refused, the
 * output stays. Goes over the tokens of each with monkey_next_token too, and over one text with all kinds. tests/run runs it on
 * cases/texts.txt.
 */
#include <stdio.h>
#include <stdlib.h>
#include <string.h>

#include "monkey.h"

enum { MOST = 131072, OTHER = 0xa5 }; /* OTHER: what stands in an output before a call */
#define PROGRAM "replay_texts"
#include "replay.h"

static uint8_t text[MOST], tree[MOST], output[MOST];

/* Whether the output has a tree's bytes at its front and is as it was behind them. */
static int has(size_t length) {
    for (size_t i = length; i < MOST; i++) {
        if (output[i] != OTHER) {
            return 0;
        }
    }
    return memcmp(output, tree, length) == 0;
}

/*
 * Whether the tokens of a text follow each other to its end or to a refusal, and the place where reading it was refused 20 or 21 is a
 * token's, the end's or that refusal's.
 */
static int walks(size_t length, uint64_t answer) {
    uint32_t number = monkey_number(answer), place = monkey_value(answer), token[4] = {0, 0, 0, OTHER};
    int refused = number == MONKEY_BAD_SCRIPT || number == MONKEY_LARGE_INTEGER, met = 0;
    for (size_t at = 0;; at = token[0] + token[1]) {
        uint64_t next = monkey_next_token(text, length, at, token, MONKEY_TOKEN_SIZE);
        if (monkey_number(next) != 0) {
            return refused && (met || (monkey_value(next) == place && (number == MONKEY_BAD_SCRIPT || next == answer)));
        }
        met = met || (number == MONKEY_BAD_SCRIPT && token[0] == place);
        if (next != MONKEY_TOKEN_SIZE || token[0] < at || token[0] + token[1] > length || token[3] != OTHER) {
            return 0;
        }
        if (token[2] >= MONKEY_TOKEN_ENDED || token[1] == 0) {
            return token[2] == MONKEY_TOKEN_ENDED && token[1] == 0 && token[0] == length && met == refused;
        }
    }
}

/* Whether a text with a token of each kind has them in the order of their numbers; refused, the numbers stay. */
static int has_kinds(void) {
    static const char all[] = "let return x 1 \"s\" true false if fn ! { ( [ - + * / < > == != else = ) ] } , : ;";
    const uint8_t *bytes = (const uint8_t *)all;
    size_t length = sizeof all - 1, at = 0;
    uint32_t token[MONKEY_TOKEN_SIZE] = {0, 0, 0};
    for (uint32_t kind = MONKEY_TOKEN_LET; kind <= MONKEY_TOKEN_ENDED; kind++) {
        if (monkey_next_token(bytes, length, at, token, MONKEY_TOKEN_SIZE) != MONKEY_TOKEN_SIZE || token[2] != kind) {
            return 0;
        }
        at = token[0] + token[1];
    }
    uint64_t behind = monkey_next_token(bytes, length, length + 1, token, MONKEY_TOKEN_SIZE);
    uint64_t cramped = monkey_next_token(bytes, length, 0, token, MONKEY_TOKEN_SIZE - 1);
    return at == length && monkey_number(behind) == MONKEY_BAD_SCRIPT && monkey_value(behind) == length &&
           monkey_number(cramped) == MONKEY_OUTPUT_SHORT && monkey_value(cramped) == 0 && token[0] == length && token[1] == 0;
}

int main(void) {
    size_t lent = MOST, length = 0;
    int asked = 0, right = 0, walked = 0, kinds = has_kinds();
    while (fgets(line, sizeof line, stdin) != NULL) {
        char *values = strchr(line, ' ');
        values = values == NULL ? line + strlen(line) : values + 1;
        if (strncmp(line, "case ", 5) == 0) {
            lent = MOST;
        } else if (strncmp(line, "lend ", 5) == 0) {
            lent = strtoul(values, NULL, 10);
            if (lent > MOST) {
                fail("too long");
            }
        } else if (strncmp(line, "text", 4) == 0) {
            length = read_bytes(values, text);
        } else if (strncmp(line, "ok", 2) == 0 || strncmp(line, "refused ", 8) == 0) {
            memset(output, OTHER, MOST);
            uint64_t answer = monkey_read_text(text, length, output, lent);
            asked++;
            walked += walks(length, answer);
            if (line[0] == 'o') {
                size_t size = read_bytes(values, tree);
                right += answer == size && has(size);
            } else {
                char *place;
                unsigned long number = strtoul(values, &place, 10);
                right += monkey_number(answer) == number && monkey_value(answer) == strtoul(place, NULL, 10) && has(0);
            }
        }
    }
    printf("texts: %d of %d cases agree\n", right, asked);
    printf("tokens: those of %d of %d texts follow each other, %s\n", walked, asked, kinds ? "all kinds are right" : "a kind is wrong");
    return right != asked || walked != asked || !kinds;
}
