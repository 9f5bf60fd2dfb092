/*
 * Replays the cases of a file of trial runs (cases/README.md) through the exported functions: each answer, every byte of the output and every number of the work area.
 * tests/run runs it on cases/trial.txt.
 */
#include <stdio.h>
#include <stdlib.h>
#include <string.h>

#include "monkey.h"

enum { MOST = 70000, ROOM = 9300, WORK = 4200, OTHER = 7 }; /* OTHER: what stands in the output and the work area before a call */
#define PROGRAM "replay_runs"
#include "replay.h"

static uint8_t given[MOST], image[MOST], expected[MOST], output[ROOM];
static uint64_t work[WORK];
static struct list heights;

/* The image of a tree in a fresh session; its length. */
static size_t compile(size_t size) {
    static uint8_t session[MONKEY_SESSION_SIZE], code[MONKEY_CODE_SIZE];
    static uint32_t table[MONKEY_TABLE_SIZE];
    monkey_make_session(session, sizeof session);
    uint64_t answer = monkey_compile(session, sizeof session, given, size, image, sizeof image, code, sizeof code, table, MONKEY_TABLE_SIZE);
    if (monkey_number(answer) != 0) {
        fail("the tree is refused");
    }
    return monkey_value(answer);
}

/* Whether the output behind its first bytes and the work area are as promised. */
static int stays(size_t written, size_t lent) {
    for (size_t i = written; i < ROOM; i++) {
        if (output[i] != OTHER) {
            return 0;
        }
    }
    for (size_t i = 0; i < WORK; i++) {
        if (work[i] != (lent >= MONKEY_WORK_SIZE && i < MONKEY_WORK_SIZE ? 0 : OTHER)) {
            return 0;
        }
    }
    return 1;
}

/* One run of an image, beside what is expected of it: `ok STEPS BYTES` or `refused NUMBER PLACE`. */
static int agrees(size_t size, int offered, size_t lend, size_t lent, char *values, int accepted) {
    static uint32_t flow[MOST];
    memset(flow, 0, sizeof flow);
    memset(output, OTHER, sizeof output);
    for (size_t i = 0; i < WORK; i++) {
        work[i] = OTHER;
    }
    if (!offered) {
        monkey_propose_heights(image, size, flow, MOST);
    }
    uint64_t answer = monkey_run(image, size, offered ? heights.at : flow, offered ? heights.length : MOST, work, lent, output, lend);
    char *rest;
    unsigned long first = strtoul(values, &rest, 10);
    if (!accepted) {
        return monkey_number(answer) == first && monkey_value(answer) == strtoul(rest, NULL, 10) && stays(0, lent);
    }
    size_t length = read_bytes(rest + 1, expected);
    return monkey_number(answer) == 0 && monkey_run_steps(answer) == first && 9 * monkey_run_globals(answer) == length && memcmp(output, expected, length) == 0 && stays(length, lent);
}

int main(void) {
    size_t lend = MONKEY_GLOBALS_LIMIT, lent = MONKEY_WORK_SIZE, size = 0;
    int offered = 0, asked = 0, right = 0;
    while (fgets(line, sizeof line, stdin) != NULL) {
        char *values = strchr(line, ' ');
        values = values == NULL ? line + strlen(line) : values + 1;
        if (strncmp(line, "case ", 5) == 0) {
            lend = MONKEY_GLOBALS_LIMIT;
            lent = MONKEY_WORK_SIZE;
            offered = 0;
        } else if (strncmp(line, "heights ", 8) == 0) {
            read_list(values, &heights);
            offered = 1;
        } else if (strncmp(line, "lend ", 5) == 0) {
            lend = strtoul(values, NULL, 10);
        } else if (strncmp(line, "work ", 5) == 0) {
            lent = strtoul(values, NULL, 10);
        } else if (strncmp(line, "run ", 4) == 0) {
            size = read_bytes(values, image);
        } else if (strncmp(line, "runtree ", 8) == 0) {
            size = compile(read_bytes(values, given));
        } else if (strncmp(line, "ok ", 3) == 0 || strncmp(line, "refused ", 8) == 0) {
            asked++;
            right += agrees(size, offered, lend, lent, values, line[0] == 'o');
        }
    }
    printf("trial runs: %d of %d cases agree\n", right, asked);
    return right != asked;
}
