/*
 * What the programs that replay recorded cases share: a case's line, bytes and lists of numbers in it. Who includes it says first what it is (PROGRAM) and how long
 * bytes and lists may be (MOST).
 */
#ifndef REPLAY_H
#define REPLAY_H

#include <stdint.h>
#include <stdio.h>
#include <stdlib.h>
#include <string.h>

struct list {
    size_t length;
    uint32_t at[MOST];
};

static char line[1 << 20];

/* Ends with what is wrong with the line. */
static inline void fail(const char *why) {
    fprintf(stderr, PROGRAM ": %s: %s\n", why, line);
    exit(1);
}

/* A number more. */
static inline void append(struct list *to, uint32_t n) {
    if (to->length == MOST) {
        fail("too long");
    }
    to->at[to->length++] = n;
}

/* A list: numbers, `5*12`, `3..7`, `7..3`, `_` for one that is 0 because its instruction is not reached, `-` for none. */
static inline void read_list(char *text, struct list *to) {
    to->length = 0;
    for (char *word = strtok(text, " \n"); word != NULL; word = strtok(NULL, " \n")) {
        char *rest = word + 1;
        if (word[0] == '-') {
            continue;
        }
        uint32_t n = word[0] == '_' ? 0 : (uint32_t)strtoul(word, &rest, 10);
        if (rest[0] == '*') {
            for (unsigned long times = strtoul(rest + 1, NULL, 10); times > 0; times--) {
                append(to, n);
            }
        } else if (rest[0] == '.') {
            uint32_t last = (uint32_t)strtoul(rest + 2, NULL, 10);
            for (; n != last; n += n < last ? 1u : (uint32_t)-1) {
                append(to, n);
            }
            append(to, last);
        } else {
            append(to, n);
        }
    }
}

/* Bytes in hexadecimal, where `{0f}301.` stands for the bytes between the braces 301 times; how many there are. */
static inline size_t read_bytes(const char *text, uint8_t *to) {
    size_t length = 0, group = 0;
    for (const char *c = text; *c != '\0' && *c != '\n' && *c != '-';) {
        if (*c == '{') {
            group = length;
            c++;
        } else if (*c == '}') {
            char *end;
            size_t size = length - group;
            unsigned long times = strtoul(c + 1, &end, 10);
            if (group + size * times > MOST) {
                fail("too long");
            }
            for (unsigned long k = 1; k < times; k++) {
                memcpy(to + group + k * size, to + group, size);
            }
            length = group + size * times;
            c = end + 1;
        } else {
            unsigned byte;
            if (length == MOST || sscanf(c, "%2x", &byte) != 1) {
                fail("no bytes");
            }
            to[length++] = (uint8_t)byte;
            c += 2;
        }
    }
    return length;
}

#endif
