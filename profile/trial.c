/*
 * What is said of an image that a trial run does not take, or that stops it: the instruction at the offset, and what is wrong with it. The
 * image decodes.
 */
#include <stdio.h>

#include "code.h"
#include "profile.h"

/* What main has at an instruction that a trial run does not take. */
static const char *untaken(const uint8_t *at) {
    switch (at[0]) {
    case CLOSURE:
        return "a function";
    case CALL:
        return "a call";
    case GET_BUILTIN:
        return "a built-in word";
    case CONSTANT:
        return "a constant that is no integer";
    case ARRAY:
        return "an array";
    case HASH:
        return "a hash";
    case INDEX:
        return "an element of an array or a hash";
    case GET_GLOBAL:
    case SET_GLOBAL:
        return "a global that no session has";
    default:
        return at[0] > RETURN_VALUE ? "what only a function can have" : "more than 1024 values on the stack";
    }
}

/* What may be wrong with the operands of an instruction that stopped a run. */
static const char *wrong_operands(const uint8_t *at) {
    switch (at[0]) {
    case DIV:
        return "a zero divisor, a result that is too large, or what is no integer";
    case GREATER_THAN:
        return "what is no integer";
    default:
        return "a result that is too large, or what is no integer";
    }
}

/* Writes why a trial run refused an image at an instruction; globals have their names where a session is given. */
void explain_trial(char *reason, size_t room, uint64_t answer, const uint8_t *image, size_t length, const uint8_t *session) {
    char name[64], entry[120] = "", global[40] = "this global";
    const uint8_t *at = image + monkey_value(answer);
    size_t name_length = 0;
    const uint8_t *named = session == NULL ? NULL : global_name(session, operand_of(at), &name_length);
    name_instruction(name, sizeof name, image, at);
    switch (monkey_number(answer)) {
    case MONKEY_NOT_RUNNABLE:
        if (at[0] == CONSTANT || at[0] == CLOSURE) {
            describe_constant(entry, sizeof entry, image, length, operand_of(at));
        }
        snprintf(reason, room, "%s: main has %s here%s, and only arithmetic, comparisons, branches and globals can be run", name, untaken(at), entry);
        break;
    case MONKEY_OPERAND:
        snprintf(reason, room, "%s: %s", name, wrong_operands(at));
        break;
    default:
        if (named != NULL) {
            snprintf(global, sizeof global, "the global %.*s", (int)name_length, (const char *)named);
        }
        snprintf(reason, room, "%s: %s is not yet set", name, shown(global));
    }
}
