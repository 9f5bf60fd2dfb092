/*
 * Replays the cases of a file of names (cases/README.md) through the exported functions: each answer, image, record and session, and that numbers behind the
 * records, and all of them where refused, stay. tests/run runs it on cases/names.txt.
 */
#include <stdio.h>
#include <stdlib.h>
#include <string.h>

#include "monkey.h"

enum { MOST = 70000, OTHER = 99999 }; /* OTHER: what stands in a number before a call */
#define PROGRAM "replay_names"
#include "replay.h"

static uint8_t session[MONKEY_SESSION_SIZE], before[MONKEY_SESSION_SIZE], output[MOST], code[MONKEY_CODE_SIZE], tree[MOST], expected[MOST];
static uint32_t table[MONKEY_TABLE_SIZE];
static struct monkey_name names[MONKEY_NAMES_LIMIT];
static const uint8_t words[] = "\x42\0\x2a" "0\0\3len0\0\4puts0\0\5first0\0\4last0\0\4rest0\0\4push";
static char topic[200];
static size_t records = MONKEY_NAMES_LIMIT, room = MOST, at;
static int recording, accepted, asked, wrong;

/* Counts a disagreement. */
static void expect(int holds, const char *what) {
    asked++;
    if (!holds) {
        wrong++;
        fprintf(stderr, "replay_names: %s: %s\n", topic, what);
    }
}

/* One call, with records or without; its answer, as length or refusal. */
static uint64_t call(size_t length) {
    memcpy(before, session, sizeof session);
    memset(output, 0xee, sizeof output);
    for (size_t k = 0; k < MONKEY_NAMES_LIMIT; k++) {
        names[k] = (struct monkey_name){OTHER, OTHER, OTHER, OTHER};
    }
    at = 0;
    return recording ? monkey_compile_names(session, sizeof session, tree, length, output, room, code, sizeof code, table, MONKEY_TABLE_SIZE, &names[0].offset, 4 * records)
                     : monkey_compile(session, sizeof session, tree, length, output, room, code, sizeof code, table, MONKEY_TABLE_SIZE);
}

/* Whether all from an index on are as they were, and the work areas zero. */
static int rest_stays(size_t from) {
    for (size_t k = from; k < MONKEY_NAMES_LIMIT; k++) {
        if (names[k].offset != OTHER || names[k].kind != OTHER || names[k].index != OTHER || names[k].crossed != OTHER) {
            return 0;
        }
    }
    for (size_t k = 0; k < MONKEY_CODE_SIZE; k++) {
        if (code[k] != 0 || table[k / 2] != 0) {
            return 0;
        }
    }
    return 1;
}

/* The next records: so many, with offsets so far apart. */
static void expect_records(unsigned offset, unsigned step, unsigned many, const char *kind, unsigned index, unsigned crossed) {
    static const char *const kinds[] = {"global", "local", "builtin", "free", "function"};
    for (; many > 0; many--, offset += step, at++) {
        const struct monkey_name *n = &names[at];
        expect(n->offset == offset && n->kind < 5 && strcmp(kinds[n->kind], kind) == 0 && n->index == index && n->crossed == crossed, "record");
    }
}

/* The session at the end of a case, without the words where a call was accepted. */
static void expect_session(size_t length) {
    size_t front = accepted ? sizeof words - 1 : 0;
    expect(memcmp(session, words, front) == 0 && memcmp(session + front, expected, length) == 0, "session");
    for (size_t k = front + length; k < sizeof session; k++) {
        if (session[k] != 0) {
            expect(0, "session's rest");
            return;
        }
    }
}

int main(void) {
    uint64_t answer = 0;
    unsigned a, b, c, d, e;
    char kind[20];
    while (fgets(line, sizeof line, stdin) != NULL) {
        char *values = strchr(line, ' ');
        values = values == NULL ? line + strlen(line) : values + 1;
        if (sscanf(line, "case %199s", topic) == 1) {
            monkey_make_session(session, sizeof session);
            recording = accepted = 0;
            room = MOST;
        } else if (strncmp(line, "start ", 6) == 0) {
            size_t length = read_bytes(values, session);
            memset(session + length, 0, sizeof session - length);
        } else if (sscanf(line, "lend %u", &a) == 1) {
            room = a;
        } else if (strncmp(line, "records ", 8) == 0) {
            recording = sscanf(values, "%u", &a) == 1;
            records = recording ? a : 0;
        } else if (strncmp(line, "tree ", 5) == 0) {
            answer = call(read_bytes(values, tree));
        } else if (strncmp(line, "ok ", 3) == 0) {
            size_t length = read_bytes(values, expected);
            accepted = 1;
            expect(monkey_number(answer) == 0 && (recording ? monkey_names_length(answer) : monkey_value(answer)) == length && memcmp(output, expected, length) == 0, "image");
            expect(rest_stays(recording ? monkey_names_count(answer) : 0), "numbers behind the records, or work areas");
        } else if (sscanf(line, "refused %u %u", &a, &b) == 2) {
            expect(monkey_number(answer) == a && monkey_value(answer) == b, "refusal");
            expect(memcmp(before, session, sizeof session) == 0 && output[0] == 0xee && rest_stays(0), "lent memory of a refused call");
        } else if (sscanf(line, "count %u", &a) == 1) {
            expect(monkey_names_count(answer) == a, "count");
        } else if (sscanf(line, "rec %u %19s %u %u", &a, kind, &b, &c) == 4) {
            expect_records(a, 0, 1, kind, b, c);
        } else if (sscanf(line, "recrun %u %u %u %19s %u %u", &a, &b, &c, kind, &d, &e) == 6) {
            expect_records(a, b, c, kind, d, e);
        } else if (strncmp(line, "state ", 6) == 0) {
            expect_session(read_bytes(values, expected));
        }
    }
    printf("names: %d of %d facts agree\n", asked - wrong, asked);
    return wrong != 0;
}
