/*
 * Reads the worst texts in a thread with a stack of 256 KB: deep nesting, long operands that each prefix or operator moves, many tokens. Checks each answer and that half of the
 * stack was left alone, and with an argument prints how long a read takes and how much of the stack it wrote. tests/run runs it.
 */
#define _POSIX_C_SOURCE 200112L
#include <pthread.h>
#include <stdio.h>
#include <stdlib.h>
#include <string.h>
#include <time.h>

#include "monkey.h"

enum { TEXT_LIMIT = 8192, STACK = 262144, PAINT = 0x5c };

/* A text: `before` so many times, `middle`, a long string where one stands there, `behind` so many times; the answer that is due. */
struct worst {
    const char *name, *before, *middle, *behind;
    size_t times, times_behind, letters;
    uint32_t number, value;
};

static const struct worst worsts[] = {
    {"4,095 parentheses around 1", "(", "1", ")", 4095, 4095, 0, 0, 17},
    {"8,192 times [", "[", "", "", 8192, 0, 0, MONKEY_BAD_SCRIPT, 8192},
    {"61 prefixes before a string", "!", "", "", 61, 0, 8129, 0, 8565},
    {"62 prefixes before a string", "!", "", "", 62, 0, 8128, MONKEY_TOO_DEEP, 0},
    {"62 nested arrays", "[", "", "]", 62, 62, 0, 0, 192},
    {"63 nested arrays", "[", "", "]", 63, 63, 0, MONKEY_TOO_DEEP, 0},
    {"60 nested calls", "f(", "1", ")", 60, 60, 0, 0, 437},
    {"1+( 60 times", "1+(", "1", ")", 60, 60, 0, 0, 1097},
    {"20 nested functions", "fn(){", "1", "}", 20, 20, 0, 0, 317},
    {"20 nested ifs", "if(1){", "1", "}", 20, 20, 0, 0, 417},
    {"20 nested lets", "fn(){let a=", "1", "}", 20, 20, 0, 0, 416},
    {"60 nested indices", "a[", "1", "]", 60, 60, 0, 0, 437},
    {"60 nested hashes", "{1:", "1", "}", 60, 60, 0, 0, 857},
    {"63 nested conditions", "if(", "1", "){1}", 63, 63, 0, MONKEY_TOO_DEEP, 0},
    {"a string, then +1 61 times", "", "", "+1", 0, 61, 8068, 0, 9175},
    {"a string, then () 61 times", "", "", "()", 0, 61, 8068, 0, 8260},
    {"4,096 times 1;", "1;", "", "", 4096, 0, 0, MONKEY_OUTPUT_SHORT, 0},
    {"2,340 times 1;", "1;", "", "", 2340, 0, 0, 0, 32763},
};

static uint8_t text[TEXT_LIMIT], output[MONKEY_TREE_LIMIT];
static size_t length;

static void append(const char *piece, size_t times) {
    for (size_t size = strlen(piece); times > 0; times--) {
        memcpy(text + length, piece, size);
        length += size;
    }
}

static void make(const struct worst *w) {
    length = 0;
    append(w->before, w->times);
    append(w->middle, 1);
    if (w->letters > 0) {
        append("\"", 1);
        append("x", w->letters);
        append("\"", 1);
    }
    append(w->behind, w->times_behind);
}

static void *read_it(void *answer) {
    *(uint64_t *)answer = monkey_read_text(text, length, output, sizeof output);
    return NULL;
}

/* Reads the text in a thread on this stack. */
static uint64_t read_in_thread(void *stack) {
    uint64_t answer = 0;
    pthread_t thread;
    pthread_attr_t attributes;
    if (pthread_attr_init(&attributes) != 0 || pthread_attr_setstack(&attributes, stack, STACK) != 0 ||
        pthread_create(&thread, &attributes, read_it, &answer) != 0 || pthread_join(thread, NULL) != 0) {
        fprintf(stderr, "worst_texts: no thread\n");
        exit(1);
    }
    pthread_attr_destroy(&attributes);
    return answer;
}

/* How much of a painted stack was written. */
static size_t written(const uint8_t *stack) {
    size_t i = 0;
    while (i < STACK && stack[i] == PAINT) {
        i++;
    }
    return STACK - i;
}

/* The least time of 200 reads. */
static double microseconds(void) {
    double least = 1e9;
    for (int k = 0; k < 200; k++) {
        struct timespec from, to;
        clock_gettime(CLOCK_MONOTONIC, &from);
        monkey_read_text(text, length, output, sizeof output);
        clock_gettime(CLOCK_MONOTONIC, &to);
        double taken = (double)(to.tv_sec - from.tv_sec) * 1e6 + (double)(to.tv_nsec - from.tv_nsec) / 1e3;
        least = taken < least ? taken : least;
    }
    return least;
}

int main(int argc, char **argv) {
    void *stack;
    int wrong = 0, all = (int)(sizeof worsts / sizeof worsts[0]);
    (void)argv;
    if (posix_memalign(&stack, 4096, STACK) != 0) {
        return 1;
    }
    for (int k = 0; k < all; k++) {
        const struct worst *w = &worsts[k];
        make(w);
        memset(stack, PAINT, STACK);
        uint64_t answer = read_in_thread(stack);
        size_t used = written(stack);
        if (monkey_number(answer) != w->number || monkey_value(answer) != w->value) {
            printf("%s: answered %u, %u\n", w->name, (unsigned)monkey_number(answer), (unsigned)monkey_value(answer));
            wrong++;
        }
        if (used > STACK / 2) {
            printf("%s: %u bytes of stack\n", w->name, (unsigned)used);
            wrong++;
        }
        if (argc > 1) {
            printf("%s: %u bytes of text, %.1f microseconds, %u bytes of stack\n", w->name, (unsigned)length, microseconds(), (unsigned)used);
        }
    }
    printf("worst texts: %d of %d answers are right\n", all - wrong, all);
    return wrong != 0;
}
