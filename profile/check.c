/*
 * Whether all that the code of an image names is there, as far as the image alone tells: the clauses of docs/FORMAT.md, Image, but that
 * globals and built-in words are held against what a session can have at most. The image decodes: the library has said so.
 */
#include <stdio.h>
#include <string.h>

#include "code.h"
#include "profile.h"

enum { INTEGER = 0x60, FUNCTION = 0x62, MOST_CONSTANTS = MONKEY_CHUNKS_LIMIT - 1, MOST_GLOBALS = MONKEY_GLOBALS_LIMIT / 9, STRING_SHOWN = 20 };

/* A constant of the pool; of a function its locals, and the fewest captures of a Closure that names it. */
struct constant {
    const uint8_t *content;
    size_t length;
    uint8_t tag;
    unsigned locals, captures;
};

static struct constant pool[MOST_CONSTANTS];
static size_t pool_count;

/* A number of two bytes. */
static unsigned two_bytes(const uint8_t *at) {
    return at[0] * 256u + at[1];
}

/* Reads the pool of an image. */
static void read_pool(const uint8_t *image, size_t length) {
    size_t at = 3 + two_bytes(image + 1) + 3;
    for (pool_count = 0; at < length; pool_count++) {
        struct constant *c = &pool[pool_count];
        size_t head = image[at] == FUNCTION ? 3 : 0; /* locals and parameters */
        c->tag = image[at];
        c->content = image + at + 3 + head;
        c->length = two_bytes(image + at + 1) - head;
        c->locals = head == 0 ? 0 : two_bytes(image + at + 3);
        c->captures = 256;
        at += 3 + head + c->length;
    }
}

/* The chunk of a number, 0 for main, else that of a constant; where this is no function, it has no code. */
static struct chunk chunk_at(const uint8_t *image, size_t number) {
    struct chunk c = {image + 3, two_bytes(image + 1), NULL};
    if (number > 0) {
        c.function = &pool[number - 1];
        c.code = c.function->content;
        c.length = c.function->tag == FUNCTION ? c.function->length : 0;
    }
    return c;
}

/* Takes what the Closures of a chunk capture into the pool. */
static void count_captures(const struct chunk *c) {
    for (size_t at = 0; at < c->length; at += instruction_length(c->code + at)) {
        unsigned index = operand_of(c->code + at);
        if (c->code[at] == CLOSURE && index < pool_count && c->code[at + 3] < pool[index].captures) {
            pool[index].captures = c->code[at + 3];
        }
    }
}

/* Whether a constant of this index is there, a function or another one. */
static int in_pool(unsigned index, int function) {
    return index < pool_count && (pool[index].tag == FUNCTION) == function;
}

/* Why main may not have an instruction, or null. */
static const char *reason_in_main(uint8_t instruction) {
    switch (instruction) {
    case GET_LOCAL:
    case SET_LOCAL:
        return "main has no locals";
    case GET_FREE:
        return "main captures nothing";
    default:
        return instruction == CURRENT_CLOSURE ? "main is no function" : NULL;
    }
}

/* Why a function has not what an instruction names, or null. */
static const char *reason_in_function(uint8_t instruction, unsigned named, const struct constant *function) {
    switch (instruction) {
    case GET_LOCAL:
    case SET_LOCAL:
        return named < function->locals ? NULL : "its function has not so many locals";
    case GET_FREE:
        return named < function->captures ? NULL : "a Closure of its function has not so many captures";
    default:
        return NULL;
    }
}

/* Why what an instruction names is not there, or null. */
static const char *reason(const struct chunk *c, size_t at) {
    unsigned named = operand_of(c->code + at);
    switch (c->code[at]) {
    case CONSTANT:
        return in_pool(named, 0) ? NULL : "the pool has no integer or string of this index";
    case CLOSURE:
        return in_pool(named, 1) ? NULL : "the pool has no function of this index";
    case JUMP_NOT_TRUTHY:
    case JUMP:
        return lands(c, at) ? NULL : "no later instruction begins there";
    case GET_GLOBAL:
    case SET_GLOBAL:
        return named < MOST_GLOBALS ? NULL : "no session has so many globals";
    case GET_BUILTIN:
        return named < MONKEY_WORDS_LIMIT ? NULL : "no session has so many built-in words";
    default:
        return c->function == NULL ? reason_in_main(c->code[at]) : reason_in_function(c->code[at], named, c->function);
    }
}

/* Finds the first instruction, main before functions, that names what is not there, and says so: whether there is one. */
static int find_missing(const uint8_t *image, char *text, size_t room) {
    char name[64];
    for (size_t k = 0; k <= pool_count; k++) {
        struct chunk c = chunk_at(image, k);
        mark_starts(&c);
        for (size_t at = 0; at < c.length; at += instruction_length(c.code + at)) {
            const char *why = reason(&c, at);
            if (why != NULL) {
                name_instruction(name, sizeof name, image, c.code + at);
                snprintf(text, room, "%s: %s", name, why);
                return 1;
            }
        }
    }
    return 0;
}

/* Says why the stack of a chunk of an image that decodes fails, a jump among the reasons. */
void explain_chunk(char *text, size_t room, const uint8_t *image, size_t length, size_t number) {
    read_pool(image, length);
    struct chunk c = chunk_at(image, number);
    explain_stack(text, room, image, &c);
    if (text[0] == 0) {
        explain_jump(text, room, image, &c);
    }
}

/* Describes the entry of the pool of an image that decodes, in brackets: a function's length, a string or its beginning. */
void describe_constant(char *text, size_t room, const uint8_t *image, size_t length, unsigned index) {
    char kept[STRING_SHOWN + 1] = "";
    read_pool(image, length);
    if (index >= pool_count) {
        snprintf(text, room, " (the pool has %zu entries)", pool_count);
        return;
    }
    const struct constant *c = &pool[index];
    size_t begun = c->length < STRING_SHOWN ? c->length : STRING_SHOWN;
    if (c->tag == FUNCTION) {
        snprintf(text, room, " (pool entry %u, a function of %zu bytes)", index, c->length);
        return;
    }
    if (c->tag != INTEGER) {
        memcpy(kept, c->content, begun);
    }
    const char *word = c->tag == INTEGER ? "an integer" : memchr(kept, 0, begun) != NULL ? "a string" : shown(kept);
    const char *quote = c->tag == INTEGER || memchr(kept, 0, begun) != NULL ? "" : "\"";
    snprintf(text, room, " (pool entry %u, %s%s%s%s)", index, quote, word, begun < c->length && quote[0] != 0 ? ".." : "", quote);
}

/* Says what was checked of an image that decodes: the answer on its stack, and what its code names. */
int report_check(const char *path, const uint8_t *image, size_t length, uint64_t stack) {
    char names[160] = "what the code names is there";
    char why[160];
    read_pool(image, length);
    for (size_t k = 0; k <= pool_count; k++) {
        struct chunk c = chunk_at(image, k);
        count_captures(&c);
    }
    int missing = find_missing(image, names, sizeof names);
    if (monkey_number(stack) != 0) {
        struct chunk c = chunk_at(image, monkey_value(stack));
        explain_stack(why, sizeof why, image, &c); /* a jump is said among the names */
        return refuse_stack(path, stack, why, names);
    }
    if (missing) {
        return refuse_names(path, names);
    }
    if (is_json()) {
        begin_object(stdout, path);
        put_literal("sound", "true");
        put_number("bytes", (long long)length);
        end_object();
        return finish_stdout();
    }
    printf("%s: sound, %zu bytes: decodes; the stack passes; %s\n", shown_path(path), length, names);
    return finish_stdout();
}
