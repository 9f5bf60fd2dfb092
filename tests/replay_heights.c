/*
 * Replays the cases of a file of heights (cases/README.md) through the exported functions: each answer, every number of the output, and that what is behind the result
 * and all of it where refused stays. tests/run runs it on cases/heights.txt.
 */
#include <stdio.h>
#include <stdlib.h>
#include <string.h>

#include "monkey.h"

enum { MOST = 70000, OTHER = 99999 }; /* OTHER: what stands in an output before a call */
#define PROGRAM "replay_heights"
#include "replay.h"

static uint8_t image[MOST];
static struct list heights, expected, output, proposed;

static void blank(struct list *l) {
    for (size_t i = 0; i < MOST; i++) {
        l->at[i] = OTHER;
    }
}

/* Whether the numbers from an index on are as they were. */
static int stays(const struct list *l, size_t from) {
    for (size_t i = from; i < MOST; i++) {
        if (l->at[i] != OTHER) {
            return 0;
        }
    }
    return 1;
}

/* Whether an answer is the one expected, and so is what it left. */
static int answers(uint64_t answer, int accepted, const struct list *left) {
    if (accepted) {
        return answer == expected.length && memcmp(left->at, expected.at, expected.length * sizeof expected.at[0]) == 0 && stays(left, expected.length);
    }
    return expected.length == 2 && monkey_number(answer) == expected.at[0] && monkey_value(answer) == expected.at[1] && stays(left, 0);
}

/* A list that is proposed fits exactly, does not fit one that is shorter, and is taken by the check. */
static int proposal_holds(size_t size) {
    blank(&output);
    if (monkey_propose_heights(image, size, output.at, expected.length) != expected.length) {
        return 0;
    }
    blank(&output);
    if (expected.length > 0 && (monkey_number(monkey_propose_heights(image, size, output.at, expected.length - 1)) != MONKEY_OUTPUT_SHORT || !stays(&output, 0))) {
        return 0;
    }
    return monkey_number(monkey_check_heights(image, size, proposed.at, expected.length, output.at, MOST)) == 0;
}

int main(void) {
    size_t room = MONKEY_CHUNKS_LIMIT, size = 0;
    int checks = 0, asked = 0, right = 0;
    while (fgets(line, sizeof line, stdin) != NULL) {
        char *values = strchr(line, ' ');
        values = values == NULL ? line + strlen(line) : values + 1;
        if (strncmp(line, "case ", 5) == 0) {
            room = MONKEY_CHUNKS_LIMIT;
            heights.length = 0;
        } else if (strncmp(line, "heights ", 8) == 0) {
            read_list(values, &heights);
        } else if (strncmp(line, "room ", 5) == 0) {
            room = strtoul(values, NULL, 10);
        } else if (strncmp(line, "stack ", 6) == 0 || strncmp(line, "flow ", 5) == 0) {
            checks = line[0] == 's';
            size = read_bytes(values, image);
        } else if (strncmp(line, "ok", 2) == 0 || strncmp(line, "refused ", 8) == 0) {
            int accepted = line[0] == 'o';
            read_list(values, &expected);
            blank(&output);
            blank(&proposed);
            uint64_t answer = checks ? monkey_check_heights(image, size, heights.at, heights.length, output.at, room) : monkey_propose_heights(image, size, proposed.at, MOST);
            asked++;
            right += answers(answer, accepted, checks ? &output : &proposed) && (checks || !accepted || proposal_holds(size));
        }
    }
    printf("heights: %d of %d cases agree\n", right, asked);
    return right != asked;
}
